//! Readings C: the table, what is encodable, 31 and 33.

use crate::common::*;
use reference::module::is_address;
use reference::{
    new_module, rule, tenths_celsius, write_alarm, write_alarm_group, write_analog,
    write_analog_group, write_limits, write_parameters, write_serial, write_version, Module,
    Parameters,
};

/// Whether a table that holds this change keeps its rule.
fn keeps(change: fn(&mut Module)) -> bool {
    let mut table = stack(&[0x02, 0x03]);
    change(&mut table[1]);
    let kept = rule(&table);
    assert!(kept == Ok(()) || kept == Err(31));
    kept.is_ok()
}

/// A module with a change in its first place.
fn changed(change: fn(&mut Module)) -> Module {
    let mut module = module(0x02);
    change(&mut module);
    module
}

#[test]
fn c1_encodable_field_by_field() {
    assert!(keeps(|m| m.analog.cells = [
        i16::MIN,
        i16::MAX,
        0,
        -1,
        1,
        5,
        5,
        5,
        5,
        5,
        5,
        5,
        5,
        5,
        5,
        0
    ]));
    assert!(keeps(
        |m| m.analog.temperatures = [i16::MIN, i16::MAX, 0, -1, 1, 0, 0, 0]
    ));
    assert!(keeps(|m| (
        m.analog.current,
        m.analog.voltage,
        m.analog.cycles
    ) = (i16::MIN, 65_535, 65_535)));
    assert!(keeps(|m| m.limits = reference::Limits {
        charge_voltage: 65_535,
        discharge_voltage: 0,
        charge_current: i16::MIN,
        discharge_current: i16::MAX,
        status: 0xFF,
    }));
    assert!(keeps(|m| m.parameters = Parameters {
        cell_high_voltage: i16::MIN,
        cell_low_voltage: i16::MAX,
        cell_under_voltage: -1,
        charge_high_temperature: i16::MIN,
        charge_low_temperature: i16::MAX,
        charge_current: i16::MIN,
        module_high_voltage: 0,
        module_low_voltage: 65_535,
        module_under_voltage: 32_768,
        discharge_high_temperature: 0,
        discharge_low_temperature: i16::MIN,
        discharge_current: i16::MAX,
    }));
    assert!(keeps(|m| m.parameters = Parameters::default()));
    assert!(keeps(|m| m.analog.cell_count = 16));
    assert!(!keeps(|m| m.analog.cell_count = 17));
    assert!(!keeps(
        |m| (m.analog.cell_count, m.analog.cells) = (0, [0; 16])
    ));
    assert!(keeps(|m| m.analog.temperature_count = 8));
    assert!(!keeps(|m| m.analog.temperature_count = 9));
    assert!(!keeps(|m| (
        m.analog.temperature_count,
        m.analog.temperatures
    ) = (0, [0; 8])));
    assert!(keeps(|m| m.alarm.cell_count = 16));
    assert!(!keeps(|m| m.alarm.cell_count = 17));
    assert!(!keeps(|m| m.alarm.cell_count = 0));
    assert!(keeps(|m| m.alarm.temperature_count = 8));
    assert!(!keeps(|m| m.alarm.temperature_count = 9));
    assert!(!keeps(|m| m.alarm.temperature_count = 0));
    for good in [0x00, 0x01, 0x02, 0xF0] {
        let mut table = stack(&[0x02]);
        table[0].alarm.cells = [good; 16];
        table[0].alarm.cell_count = 16;
        table[0].alarm.temperatures = [good; 8];
        table[0].alarm.temperature_count = 8;
        table[0].alarm.charge_current = good;
        table[0].alarm.module_voltage = good;
        table[0].alarm.discharge_current = good;
        assert_eq!(rule(&table), Ok(()));
    }
    for bad in (0..=255).filter(|code| ![0x00, 0x01, 0x02, 0xF0].contains(code)) {
        for place in 0..5 {
            let mut table = stack(&[0x02]);
            let alarm = &mut table[0].alarm;
            match place {
                0 => alarm.cells[14] = bad,
                1 => alarm.temperatures[4] = bad,
                2 => alarm.charge_current = bad,
                3 => alarm.module_voltage = bad,
                _ => alarm.discharge_current = bad,
            }
            assert_eq!(rule(&table), Err(31));
        }
    }
    assert!(keeps(|m| m.alarm.status = [0xFF; 5]));
    assert!(keeps(|m| (m.serial, m.version) = ([0xFF; 16], [0xFF; 5])));
    assert!(keeps(
        |m| (m.analog.remaining, m.analog.total) = (65_000, 65_000)
    ));
    assert!(keeps(|m| (m.analog.remaining, m.analog.total) = (0, 65_001)));
    assert!(keeps(
        |m| (m.analog.remaining, m.analog.total) = (16_777_215, 65_001)
    ));
    assert!(keeps(
        |m| (m.analog.remaining, m.analog.total) = (0, 16_777_215)
    ));
    assert!(!keeps(
        |m| (m.analog.remaining, m.analog.total) = (0, 16_777_216)
    ));
    assert!(!keeps(
        |m| (m.analog.remaining, m.analog.total) = (16_777_216, 65_001)
    ));
    assert!(!keeps(
        |m| (m.analog.remaining, m.analog.total) = (u32::MAX, u32::MAX)
    ));
    // List places beyond M or N.
    assert!(!keeps(|m| m.analog.cells[15] = 1));
    assert!(!keeps(|m| m.analog.temperatures[5] = -1));
    assert!(!keeps(|m| m.alarm.cells[15] = 1));
    assert!(!keeps(|m| m.alarm.temperatures[5] = 0xF0));
}

#[test]
fn c2_items_follow_from_total() {
    let bad = changed(|m| (m.analog.remaining, m.analog.total) = (65_001, 65_000));
    assert_eq!(written(|out| write_analog(&bad, 0, out)), Err(33));
    assert_eq!(rule(&[bad]), Err(31));
    // Remaining may exceed total.
    let more = changed(|m| (m.analog.remaining, m.analog.total) = (65_000, 1));
    assert!(written(|out| write_analog(&more, 0, out)).is_ok());
    let more = changed(|m| (m.analog.remaining, m.analog.total) = (99_999, 65_001));
    let info = written(|out| write_analog(&more, 0, out)).unwrap();
    assert_eq!(&info[48..], h("FFFF 04 FFFF 0002 01869F 00FDE9"));
}

#[test]
fn c3_temperature_is_the_raw_word() {
    let module = changed(|m| m.analog.temperatures[0] = i16::MIN);
    let info = written(|out| write_analog(&module, 0, out)).unwrap();
    assert_eq!(&info[34..36], h("8000"));
    assert_eq!(tenths_celsius(i16::MIN), -35_499);
    assert_eq!(tenths_celsius(i16::MAX), 30_036);
}

#[test]
fn c4_strictly_rising_addresses_of_one_group() {
    assert_eq!(rule(&stack(&[0x03, 0x02])), Err(31));
    assert_eq!(rule(&stack(&[0x02, 0x02])), Err(31));
    assert_eq!(rule(&stack(&[0x02, 0x13])), Err(31));
    // The master need not be there.
    assert_eq!(rule(&stack(&[0x05, 0x0D])), Ok(()));
    for group in 0..=15_u8 {
        for n in 0..=15_u8 {
            let right = group <= 7 && (2..=13).contains(&n);
            let kept = rule(&stack(&[16 * group + n]));
            assert_eq!(kept.is_ok(), right, "{group} {n}");
        }
    }
    // Alike contents are no matter.
    let mut twins = stack(&[0x02, 0x03]);
    twins[1] = Module {
        adr: 0x03,
        ..twins[0]
    };
    assert_eq!(rule(&twins), Ok(()));
}

#[test]
fn c5_31_against_33() {
    // A bad value in an off member that no command asks for.
    let mut table = stack(&[0x02, 0x03]);
    table[1].on = 0;
    table[1].alarm.discharge_current = 3;
    assert_eq!(written(|out| write_analog_group(&table, 0, out)), Err(31));
    assert_eq!(written(|out| write_alarm_group(&table, 0, out)), Err(31));
    assert_eq!(write_analog_group(&table, 0, &mut []), Err(31));
    assert_eq!(written(|out| write_alarm(&table[1], 0, out)), Err(33));
    assert_eq!(write_alarm(&table[1], 0, &mut []), Err(33));
    assert_eq!(rule(&[]), Err(31));
    let addresses: Vec<u8> = (2..=14).collect();
    assert_eq!(rule(&stack(&addresses[..12])), Ok(()));
    assert_eq!(rule(&stack(&addresses)), Err(31));
}

#[test]
fn c6_single_writer_judges_only_its_kind() {
    let module = changed(|m| {
        m.analog.cell_count = 0;
        m.on = 7;
        m.link_fault = 9;
    });
    assert_eq!(written(|out| write_analog(&module, 0, out)), Err(33));
    assert!(written(|out| write_alarm(&module, 0, out)).is_ok());
    assert!(written(|out| write_parameters(&module, 0, out)).is_ok());
    assert!(written(|out| write_limits(&module, out)).is_ok());
    assert!(written(|out| write_serial(&module, out)).is_ok());
    assert!(written(|out| write_version(&module, out)).is_ok());
    let module = changed(|m| m.alarm.temperature_count = 9);
    assert_eq!(written(|out| write_alarm(&module, 0, out)), Err(33));
    assert!(written(|out| write_analog(&module, 0, out)).is_ok());
    // 32 below the record's INFO, and nothing is written.
    let module = changed(|_| ());
    let lengths = [
        (0x42, 55),
        (0x44, 32),
        (0x47, 25),
        (0x92, 10),
        (0x93, 17),
        (0x96, 6),
    ];
    for (kind, length) in lengths {
        let write = |out: &mut [u8]| match kind {
            0x42 => write_analog(&module, 0, out),
            0x44 => write_alarm(&module, 0, out),
            0x47 => write_parameters(&module, 0, out),
            0x92 => write_limits(&module, out),
            0x93 => write_serial(&module, out),
            _ => write_version(&module, out),
        };
        let mut short = vec![5; length - 1];
        assert_eq!(write(&mut short), Err(32));
        assert_eq!(short, vec![5; length - 1]);
        let mut enough = vec![5; length + 1];
        assert_eq!(write(&mut enough), Ok(length));
        assert_eq!(enough[length], 5);
    }
}

#[test]
fn c7_count_out_of_range_is_33_by_itself() {
    for count in [0, 17, 255] {
        let mut module = module(0x02);
        module.analog.cell_count = count;
        module.analog.cells = [0; 16];
        module.alarm.cell_count = count;
        assert_eq!(written(|out| write_analog(&module, 0, out)), Err(33));
        assert_eq!(written(|out| write_alarm(&module, 0, out)), Err(33));
    }
    let module = changed(|m| m.analog.cells[15] = 1);
    assert_eq!(written(|out| write_analog(&module, 0, out)), Err(33));
}

#[test]
fn c8_group_with_no_member_on() {
    let mut table = stack(&[0x02, 0x03]);
    table[0].on = 0;
    table[1].on = 0;
    assert_eq!(
        written(|out| write_analog_group(&table, 0x11, out)),
        Ok(vec![0x11, 0xFF])
    );
    assert_eq!(
        written(|out| write_alarm_group(&table, 0x00, out)),
        Ok(vec![0x00, 0xFF])
    );
    assert_eq!(write_analog_group(&table, 0x11, &mut [5]), Err(32));
    // With members on, theirs in rising ADR.
    table[1].on = 1;
    let one = written(|out| write_analog(&table[1], 0x11, out)).unwrap();
    let group = written(|out| write_analog_group(&table, 0x11, out)).unwrap();
    assert_eq!(group[..2], [0x11, 0xFF]);
    assert_eq!(group[2..], one[2..]);
}

#[test]
fn c9_single_record_needs_no_table() {
    for adr in 0..=255 {
        let module = Module {
            adr,
            ..module(0x02)
        };
        let right = adr < 0x80 && (2..=13).contains(&(adr % 16));
        let expected = if right { None } else { Some(33) };
        assert_eq!(written(|out| write_analog(&module, 0, out)).err(), expected);
        assert_eq!(written(|out| write_alarm(&module, 0, out)).err(), expected);
        let parameters = written(|out| write_parameters(&module, 0, out));
        assert_eq!(parameters.err(), expected);
        assert_eq!(written(|out| write_limits(&module, out)).err(), expected);
        assert_eq!(written(|out| write_serial(&module, out)).err(), expected);
        assert_eq!(written(|out| write_version(&module, out)).err(), expected);
    }
}

#[test]
fn a_new_record_is_a_table_where_its_adr_is_one() {
    for adr in 0..=255 {
        let new = new_module(adr);
        assert_eq!(rule(&[new]).is_ok(), is_address(adr));
        assert_eq!((new.on, new.link_fault), (1, 0));
        assert_eq!(new.parameters, Parameters::default());
    }
    // Nothing was read: 0 mV, and a temperature that no module has.
    let limits = new_module(0x02).parameters;
    assert_eq!(limits.cell_high_voltage, 0);
    assert_eq!(tenths_celsius(limits.charge_high_temperature), -2_731);
}

#[test]
fn c10_marks_are_bytes_0_or_1() {
    for mark in 0..=255 {
        let mut table = stack(&[0x02]);
        table[0].on = mark;
        assert_eq!(rule(&table).is_ok(), mark <= 1);
        let mut table = stack(&[0x02]);
        table[0].link_fault = mark;
        assert_eq!(rule(&table).is_ok(), mark <= 1);
    }
}

#[test]
fn c11_a_writer_for_47h() {
    // The flag given, no Command, twelve words.
    let module = changed(|_| ());
    for flag in [0x00, 0x01, 0x11, 0xFF] {
        let info = written(|out| write_parameters(&module, flag, out)).unwrap();
        assert_eq!(info[0], flag);
        let words = "0E74 0BEA 0B54 0C9F 0AAB 00FA D002 B798 ADD4 0D03 0A47 FF06";
        assert_eq!(info[1..], h(words));
    }
    // 33 for an ADR outside the address rule, though it is not written; then 32.
    for adr in [0x00, 0x01, 0x0E, 0x82, 0xFF] {
        let outside = Module { adr, ..module };
        assert_eq!(write_parameters(&outside, 0, &mut []), Err(33));
        assert_eq!(write_parameters(&outside, 0, &mut [5; 25]), Err(33));
    }
    let mut short = [5; 24];
    assert_eq!(write_parameters(&module, 0, &mut short), Err(32));
    assert_eq!(short, [5; 24]);
    assert_eq!(write_parameters(&module, 0, &mut []), Err(32));
    // ADR is the only thing of the record that is judged.
    let broken = changed(|m| (m.on, m.analog.cell_count, m.alarm.cell_count) = (7, 0, 17));
    assert_eq!(write_parameters(&broken, 0, &mut [0; 25]), Ok(25));
}
