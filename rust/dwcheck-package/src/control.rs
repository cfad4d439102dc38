//! The description of a package: the file `control` (deb-control(5)).

use crate::error::PackageError;

/// What a package says of itself.
#[derive(Clone, Debug, PartialEq, Eq)]
pub struct Control {
    /// Its name.
    pub name: String,
    /// Its version.
    pub version: String,
    /// Its architecture.
    pub architecture: String,
    /// The name of its source package.
    pub source: String,
}

impl Control {
    /// Reads the fields that matter.
    pub(crate) fn read(text: &str) -> Result<Control, PackageError> {
        let field = |wanted: &str| {
            let mut fields = text.lines().filter_map(|line| line.split_once(':'));
            let value = fields.find(|(name, _)| name.eq_ignore_ascii_case(wanted)).map(|(_, value)| value.trim());
            value.filter(|value| !value.is_empty()).map(|value| value.chars().filter(|c| !c.is_control()).collect())
        };
        let needed = |name: &'static str| field(name).ok_or(PackageError::Field(name));
        let name: String = needed("Package")?;
        // A version in parentheses follows the source's name if it isn't that of the package.
        let source = field("Source").unwrap_or_else(|| name.clone());
        let source = source.split(' ').next().unwrap_or_default().to_string();
        Ok(Control { name, version: needed("Version")?, architecture: needed("Architecture")?, source })
    }
}
