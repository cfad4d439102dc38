#!/usr/bin/env python3
"""Lists the lemmas that a crate's proofs import from another crate's proofs, and checks that each
is covered by a law.

A proof file can't call a function, so where it needs a law of another crate, it imports the lemma
that proves the law. For each imported lemma this prints the law whose proof imports it too, or says
that WITHOUT_LAW below lists it. The exit status is 1 if neither is true of a lemma, or if that list
has a lemma that has a law or that no other crate's proof imports.

usage: bench/proof_imports.py [REPOSITORY]
"""
import pathlib
import re
import sys

USE = re.compile(r"^use Rattle\.(dw_\w+)\.proofs\.(\S+?)\.\{(.*)\}$", re.MULTILINE)
# Lemmas and definitions of one crate's proofs that another's use and no law states: they are about any
# type, any reader or any grammar of fields, which no clause can say, or they are plain logic.
WITHOUT_LAW = {
    # any reader; equal parts make equal records; laws that are stated of `Cursor`, for any position
    "dw_bytes.Readers":
        "ExactAt bind-ok leaves-suffix ok-is one-encoding same-reading take-exact fixed-exact uleb-exact sleb-exact "
        "address-exact",
    # any field that is taken from the front of bytes
    "dw_bytes.Encoded": "Agrees guard_ok past_field_found past_field_only",
    # any reader of items, one after the other
    "dw_bytes.Sequences":
        "ReadsEach Forward forward goes-on stops ends all-read located-exact sequence-exact exactly-exact "
        "exactly-more exactly-stops",
    # any table of codes, and any kind of operand
    "dw_bytes.Codes": "coded-exact coded-some operand-exact",
    # any table of codes
    "dw_bytes.CodeBounds": "coded-stays",
    # any reader; a name for a sum; where initial lengths and bytes end
    "dw_bytes.Bounds": "Stays AlwaysStays each-along located-stays end-of",
    # any grammar of fields; a test that is no fault is true
    "dw_bytes.FieldsOf": "fields-exact fields-stay passed",
    # any result
    "dw_bytes.Bodies": "bind-err not-err",
    # any list
    "dw_loclists.Search": "contains-map",
    # any bytes: whether there are too many
    "dw_sections.Lengths": "short_length long_length short_fault long_fault no_fault",
    # any list: elements of mapped lists, places in lists in ascending order
    "dw_rules.Elements": "placed-map contains-map contained-map ascending-back",
    "dw_rules.Search": "ascending-at ascending-same searched-found searched-none squeeze three_ways",
    # any list of expressions, found by where they begin
    "dw_rules.ExpressionsByOffset": "at-offset found-in-parts no-expression",
    # any list of rules
    "dw_rules.Tables": "rule_list-same rule_list-changed",
    "dw_rules.RulesWithExpressions": "length-with",
    # any effects: which expressions the rules name that they leave
    "dw_rules.NamedExpressions": "cfa-has listed-have rules-have",
    # any state: only two instructions use the remembered rules
    "dw_rules.StepsInCode": "IsPlain steps-memory",
    # any list of CIEs, and what is stored of each
    "dw_rules.Initials": "left-at left-count left-one",
    # an ABI's numbers, one after the other
    "dw_rules.AbiRules": "abi-stands",
    # any list of rows without gaps
    "dw_rows.rows.Covering": "cover-after find-above find-below find-some found-by here not-here-above not-here-below",
    # any rows, before and after expressions are put in place of their offsets
    "dw_rows.rows.RowsWithExpressions": "find-with",
    # any section: where a row is found, if one FDE covers the address
    "dw_rows.rows.Lookups": "row-found",
    # any index of FDEs
    "dw_rows.sections.Indexes": "AreDistinct entry-placed",
    # any run of a program: the rules that it leaves name expressions of the section
    "dw_rows.expressions.Lending": "lends-kept",
    # any block: where the bytes from an address on are
    "dw_eval.Windows": "window_in",
    # any list that is written to an array, as far as it fits
    "dw_c_types.Putting": "comes puts-length puts_next puts_no_more puts_shown",
    # any initial length: it has at least one byte
    "dw_frame.EachRecord": "some-length",
}


def imports(crate):
    """What the proofs of a crate import from proofs, of this or other crates. For each imported
    name: the importing file, the crate and the module that it is from, and the name."""
    for path in sorted((crate / "proofs").rglob("*.antt")):
        for owner, module, names in USE.findall(path.read_text()):
            for name in names.split(","):
                yield path, owner, module, name.split(" as ")[0].strip()


def laws(crates):
    """For each lemma that the proof of a law imports from its own crate: the law, by the crate, the
    module and the name of the lemma."""
    found = {}
    for crate in crates:
        for path, owner, module, name in imports(crate):
            parts = path.relative_to(crate / "proofs").parts
            if parts[0] == "laws" and owner == crate.name:
                found.setdefault((owner, module, name), parts[1])
    return found


def listed():
    """The names of the lemmas that WITHOUT_LAW lists, by crate and module."""
    return {tuple(module.split(".", 1)): names.split() for module, names in WITHOUT_LAW.items()}


def main():
    top = pathlib.Path(sys.argv[1] if len(sys.argv) > 1 else ".")
    crates = [path for path in sorted((top / "crates").iterdir()) if (path / "proofs").is_dir()]
    by_law = laws(crates)
    by_reason = listed()
    users, missing = {}, []
    for crate in crates:
        for _, owner, module, name in imports(crate):
            if owner != crate.name:
                users.setdefault((owner, module, name), set()).add(crate.name)
    unused = {(key, name) for key, names in by_reason.items() for name in names}
    for (owner, module, name), who in sorted(users.items()):
        law = by_law.get((owner, module, name))
        if law:
            rests_on = f"law {law}"
        elif name in by_reason.get((owner, module), []):
            rests_on = "WITHOUT_LAW"
            unused.discard(((owner, module), name))
        else:
            rests_on = "NOTHING"
            missing.append(name)
        print(f"{owner}.{module}.{name}: {rests_on}; named by {', '.join(sorted(who))}")
    for (owner, module), name in sorted(unused):
        print(f"{owner}.{module}.{name}: listed, but it has a law or nothing names it")
    print(f"{len(users)} lemmas, {len(missing)} with neither a law nor a reason")
    return 1 if missing or unused else 0


if __name__ == "__main__":
    sys.exit(main())
