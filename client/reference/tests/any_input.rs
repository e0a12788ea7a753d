//! Any number, any length, any byte and any double may come in: nothing here may panic, an overflow included. Within the ranges, at
//! their ends above all, a table closes.

use reference::{balances, check, floor_tick, metres, printed, reach, read, report, tick, verdict, zone_table, Case, Record};

/// Numbers that look random and are the same in every run.
struct Numbers(u64);

impl Numbers {
    fn word(&mut self) -> u64 {
        self.0 ^= self.0 << 13;
        self.0 ^= self.0 >> 7;
        self.0 ^= self.0 << 17;
        self.0.wrapping_mul(0x2545_f491_4f6c_dd1d)
    }

    fn below(&mut self, end: usize) -> usize {
        (self.word() % end as u64) as usize
    }

    fn one_of(&mut self, choices: &[i64]) -> i64 {
        choices[self.below(choices.len())]
    }

    /// One of the ends three times in four, otherwise between them.
    fn within(&mut self, lower: i64, upper: i64) -> i64 {
        let between = lower + self.below((upper - lower + 1) as usize) as i64;
        self.one_of(&[lower, upper, between, lower])
    }

    fn wild(&mut self) -> i64 {
        let word = self.word() as i64;
        self.one_of(&[
            0,
            1,
            -1,
            2,
            5,
            64,
            65,
            100,
            512,
            1_000,
            1_023,
            4_096,
            4_194_304,
            -4_194_305,
            1_073_741_825,
            i64::MIN,
            i64::MAX,
            word,
        ])
    }

    fn list(&mut self, length: usize, number: impl Fn(&mut Numbers) -> i64) -> Vec<i64> {
        (0..length).map(|_| number(self)).collect()
    }
}

/// A case with its own numbers.
struct Owned {
    record: Record,
    columns: Vec<i64>,
    rows: Vec<i64>,
    slots: Vec<i64>,
}

impl Owned {
    fn case(&self) -> Case<'_> {
        Case { record: self.record, columns: &self.columns, rows: &self.rows, slots: &self.slots }
    }

    fn blocks(&self) -> usize {
        self.slots.len() / 16
    }

    /// One number anywhere becomes any number.
    fn damage(&mut self, numbers: &mut Numbers) {
        let record = &mut self.record;
        let mut all = vec![&mut record.columns, &mut record.rows, &mut record.layers, &mut record.delta, &mut record.flag];
        all.extend([&mut record.fresh_weight, &mut record.salt_weight, &mut record.step, &mut record.tolerance]);
        all.extend(self.columns.iter_mut().chain(&mut self.rows).chain(&mut self.slots));
        let place = numbers.below(all.len());
        *all[place] = numbers.wild();
    }
}

/// A block that keeps its ranges; `level` is the deepest that its base may be, `span` the room up to the next layer, ticks.
fn block(numbers: &mut Numbers, top_layer: bool, level: i64, span: i64) -> [i64; 16] {
    let k = numbers.one_of(&[0, 1, 3, 200, 10_000, 1_000_000, 1]);
    if k == 0 {
        return [0; 16];
    }
    let thickness = numbers.one_of(&[1, 2, 3, 8_192, span]);
    let base = level + numbers.within(0, span - thickness);
    let pumpage = numbers.one_of(&[0, 0, 7, -7, 1_073_741_824, -1_073_741_824]);
    let bottom = base + numbers.within(0, thickness - 1);
    let top = bottom + 1 + numbers.within(0, base + thickness - bottom - 1);
    let (bottom, top) = if pumpage == 0 { (0, 0) } else { (bottom, top) };
    let (leakance, recharge) = if top_layer { (0, numbers.within(0, 1_000_000)) } else { (numbers.one_of(&[0, 1, 900]), 0) };
    let kind = if top_layer { numbers.within(0, 5) } else { numbers.one_of(&[0, 0, 3, 4, 5]) };
    let kind = if numbers.below(4) == 0 && top_layer { 2 } else { kind };
    let stage_or_floor = numbers.within(-4_194_304, if kind == 1 { 4_194_304 } else { 0 });
    let (stage_or_floor, boundary_leakance) = if kind == 1 || kind == 2 { (stage_or_floor, numbers.one_of(&[1, 20, 999])) } else { (0, 0) };
    let heads = [base, base + thickness / 2, base + thickness + 1, 4_194_304, -4_194_304].map(|head| head.min(4_194_304));
    let [fresh, salt] = [numbers.one_of(&heads), numbers.one_of(&heads)];
    let fixed = numbers.below(8) > 0 && kind >= 3;
    let [old_fresh, old_salt] = if fixed { [fresh, salt] } else { [numbers.one_of(&heads), numbers.one_of(&heads)] };
    let porosity = numbers.within(1, 1_000);
    [
        k,
        base,
        thickness,
        porosity,
        leakance,
        recharge,
        pumpage,
        bottom,
        top,
        kind,
        stage_or_floor,
        boundary_leakance,
        old_fresh,
        old_salt,
        fresh,
        salt,
    ]
}

/// A case that keeps its ranges, and mostly 10 too.
fn ordered(numbers: &mut Numbers) -> Owned {
    let [columns, rows, layers] = [1 + numbers.below(5), 1 + numbers.below(5), 1 + numbers.below(4)];
    let delta = numbers.within(0, 100);
    let fresh_weight = numbers.within(990, 1_010);
    let salt_weight = numbers.within(1_011.max(fresh_weight + 5), 1_050);
    let [fresh_weight, salt_weight] = if delta == 0 { [fresh_weight, salt_weight] } else { [0, 0] };
    let record = Record {
        columns: columns as i64,
        rows: rows as i64,
        layers: layers as i64,
        delta,
        fresh_weight,
        salt_weight,
        flag: numbers.within(0, 1),
        step: numbers.within(1, 36_525),
        tolerance: numbers.within(0, 1_000_000_000),
    };
    let span = 8_000_000 / layers as i64 / 2;
    let mut slots = Vec::new();
    for layer in 0..layers {
        for _ in 0..columns * rows {
            slots.extend(block(numbers, layer + 1 == layers, -4_194_304 + layer as i64 * span, span));
        }
    }
    let width = |numbers: &mut Numbers| numbers.one_of(&[1, 100, 100, 4_096, 4_095]);
    Owned { record, columns: numbers.list(columns, width), rows: numbers.list(rows, width), slots }
}

/// The same as a file.
fn file(owned: &Owned) -> Vec<u8> {
    let record = &owned.record;
    let mut sent = vec![record.columns, record.rows, record.layers, record.delta];
    if record.delta == 0 {
        sent.extend([record.fresh_weight, record.salt_weight]);
    }
    sent.extend([record.flag, record.step, record.tolerance]);
    sent.extend(owned.columns.iter().chain(&owned.rows));
    for block in owned.slots.chunks_exact(16) {
        let river_or_sea = block[9] == 1 || block[9] == 2;
        let present = |slot: usize| slot == 0 || (block[0] != 0 && (river_or_sea || (slot != 10 && slot != 11)));
        let signed = |slot: usize| matches!(slot, 1 | 6 | 7 | 8 | 10 | 12..=15);
        let as_sent = |slot: usize| match block[slot] {
            number if !signed(slot) => number,
            number if number < 0 => -2 * number - 1,
            number => 2 * number,
        };
        sent.extend((0..16).filter(|&slot| present(slot)).map(as_sent));
    }
    let mut bytes = Vec::new();
    for mut number in sent {
        while number >= 128 {
            bytes.push((number % 128 + 128) as u8);
            number /= 128;
        }
        bytes.push(number as u8);
    }
    bytes
}

fn ask_all(owned: &Owned, marks: &[i64], number: usize) -> bool {
    let case = owned.case();
    let checked = check(&case);
    let verdict = verdict(&case);
    assert_eq!(verdict.map(|_| ()), checked);
    let _ = report(&case, number);
    let _ = zone_table(&case, marks);
    let _ = balances(&case);
    let _ = reach(&owned.record, number);
    checked.is_ok()
}

#[test]
fn any_slices() {
    let mut numbers = Numbers(1);
    for _ in 0..5_000 {
        let [columns, rows, layers, delta, fresh_weight, salt_weight, flag, step, tolerance] = [0; 9].map(|_| numbers.wild());
        let record = Record { columns, rows, layers, delta, fresh_weight, salt_weight, flag, step, tolerance };
        let lengths = [numbers.below(7), numbers.below(7), numbers.below(65), numbers.below(7)];
        let [columns, rows, slots, marks] = lengths.map(|length| numbers.list(length, Numbers::wild));
        let number = numbers.wild() as usize;
        ask_all(&Owned { record, columns, rows, slots }, &marks, number);
    }
}

#[test]
fn damaged_slices() {
    let mut numbers = Numbers(2);
    let mut passed = 0;
    for _ in 0..1_000 {
        let mut owned = ordered(&mut numbers);
        owned.damage(&mut numbers);
        let marks = numbers.list(owned.blocks(), |numbers| numbers.within(0, 1));
        let number = numbers.below(20);
        passed += usize::from(ask_all(&owned, &marks, number));
    }
    assert!(passed > 100, "{passed} of 1,000 pass");
}

/// "Closing: storage + error = in - out + converted + wells + recharge + boundary + supply."
#[test]
fn tables_close_and_add() {
    let mut numbers = Numbers(3);
    let mut tables = 0;
    for _ in 0..1_000 {
        let owned = ordered(&mut numbers);
        let marks = numbers.list(owned.blocks(), |numbers| numbers.within(0, 1));
        let others: Vec<i64> = marks.iter().map(|mark| 1 - mark).collect();
        let zones = [marks, others, vec![1; owned.blocks()]].map(|marks| zone_table(&owned.case(), &marks));
        let [Ok(zone), Ok(rest), Ok(all)] = zones else { continue };
        for row in [zone, rest, all].concat() {
            let [storage, edge_in, edge_out, converted, wells, recharge, boundary, supply, error] = row;
            assert_eq!(storage + error, edge_in - edge_out + converted + wells + recharge + boundary + supply);
        }
        for fluid in 0..2 {
            for line in [0, 4, 5, 6, 7, 8] {
                assert_eq!(zone[fluid][line] + rest[fluid][line], all[fluid][line]);
            }
        }
        tables += 1;
    }
    assert!(tables > 300, "{tables} of 1,000 cases have a table");
}

#[test]
fn files_are_read_and_damaged() {
    let mut numbers = Numbers(4);
    let mut same = 0;
    for _ in 0..1_000 {
        let owned = ordered(&mut numbers);
        let mut bytes = file(&owned);
        let (mut columns, mut rows, mut slots) = (vec![7; 64], vec![7; 64], vec![7; 8_192]);
        let record = read(&bytes, &mut columns, &mut rows, &mut slots);
        assert_eq!(record.map(|_| ()), check(&owned.case()));
        if record.is_ok() {
            assert_eq!((record, &slots[..owned.slots.len()]), (Ok(owned.record), &owned.slots[..]));
            same += 1;
        }
        let place = numbers.below(bytes.len());
        bytes[place] = numbers.word() as u8;
        bytes.truncate(bytes.len() - numbers.below(2));
        let (mut columns, mut rows, mut slots) = ([7; 4], [7; 5], [7; 800]);
        let refused = read(&bytes, &mut columns, &mut rows, &mut slots).is_err();
        let kept = columns.iter().chain(&rows).chain(&slots).all(|&number| number == 7);
        assert!(kept || !refused, "a refused read has written");
        assert!(!printed(&bytes).is_empty());
    }
    assert!(same > 500, "{same} of 1,000 files are read");
}

#[test]
fn any_double_and_any_tick() {
    let mut numbers = Numbers(5);
    for _ in 0..10_000 {
        let double = f64::from_bits(numbers.word());
        assert!(floor_tick(double).is_err() || floor_tick(double) == tick(double));
        let wild = numbers.wild();
        assert_eq!(metres(wild).is_ok(), wild > -(1 << 53) && wild < 1 << 53);
    }
    for double in [f64::NAN, f64::INFINITY, f64::NEG_INFINITY, f64::MAX, f64::MIN, 1_024.000_122_070_312_5f64.next_up()] {
        assert!(tick(double).is_err());
    }
    for (double, expected) in
        [(0.0, 0), (-0.0, 0), (f64::MIN_POSITIVE, 0), (5e-324, 0), (1_024.000_122_070_312_5, 4_194_304), (-1_024.0, -4_194_304)]
    {
        assert_eq!(tick(double), Ok(expected));
    }
}
