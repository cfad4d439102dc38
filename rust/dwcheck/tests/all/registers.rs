//! Tests of `Registers`, which doesn't call the C library.

use dwcheck::Registers;

#[test]
fn a_register_is_set_and_forgotten() {
    let mut registers = Registers::new();
    for number in [0, 7, 8, 9, 65535] {
        assert_eq!(registers.get(number), None);
        assert_eq!(registers.remove(number), None);
        registers.set(number, u64::from(number) + 1);
        assert_eq!(registers.get(number), Some(u64::from(number) + 1));
    }
    registers.set(8, 5);
    assert_eq!(registers.remove(8), Some(5));
    assert_eq!((registers.get(8), registers.remove(8)), (None, None));
    let all: Vec<_> = registers.iter().collect();
    assert_eq!(all, [(0, 1), (7, 8), (9, 10), (65535, 65536)]);
    registers.clear();
    assert_eq!(registers, Registers::new());
    assert_eq!(registers.get(0), None);
}

#[test]
fn registers_are_equal_by_what_is_known() {
    let mut one = Registers::from([(3, 1), (200, 2)]);
    assert_ne!(one, Registers::from([(3, 1)]));
    one.remove(200);
    assert_eq!(one, Registers::from([(3, 1)]));
    assert_ne!(one, Registers::from([(3, 2)]));
    one.extend([(4, 7), (3, 9)]);
    assert_eq!(one, [(3, 9), (4, 7)].into_iter().collect());
    assert_eq!(format!("{:?}", one), "{3: 9, 4: 7}");
}
