//! The library's own checked move, on real modules that GNU ld linked at two places.

mod command_runner;

use command_runner::real;
use xcoff::{
    build_images, check_images, loader_symbol_table, module, move_images, move_images_checked,
    versions, Comparison, NotMoved, Plan, Refusal,
};

struct Bench {
    file: Vec<u8>,
    from: Plan,
    to: Plan,
    text: Vec<u8>,
    data: Vec<u8>,
}

fn plan(file: &[u8], text: u64, data: u64) -> Plan {
    let rows = loader_symbol_table(file).unwrap();
    let list = rows.iter().map(|row| row.symbol.value).collect();
    Plan { text, data, list }
}

/// The images of a module for the first of two plans.
fn bench(name: &str) -> Bench {
    let file = real(name);
    let m = module(&file).unwrap();
    let (mut text, mut data) = (vec![0; m.text.size as usize], vec![0; m.image as usize]);
    let (from, to) = (plan(&file, 0x10000, 0x80000), plan(&file, 0x40000, 0xc0000));
    build_images(&file, &from, &mut text, &mut data).unwrap();
    Bench {
        file,
        from,
        to,
        text,
        data,
    }
}

#[test]
fn images_are_moved_once_and_not_a_second_time() {
    for name in [
        "textrel.a-32",
        "textrel.a-64",
        "exe-imports-32",
        "shr-rel300-64",
    ] {
        let mut b = bench(name);
        let check = |b: &Bench, plan: &Plan| check_images(&b.file, plan, &b.text, &b.data).unwrap();
        assert_eq!(check(&b, &b.from), Comparison::Equal, "{name}");
        let before = (b.text.clone(), b.data.clone());
        let reached =
            move_images_checked(&b.file, &b.from, &b.to, &mut b.text, &mut b.data).unwrap();
        let mut plain = before.clone();
        let own = move_images(&b.file, &b.from, &b.to, &mut plain.0, &mut plain.1).unwrap();
        assert_eq!(
            (reached, &b.text, &b.data),
            (own, &plain.0, &plain.1),
            "{name}"
        );
        assert_eq!(check(&b, &b.to), Comparison::Equal, "{name}");
        let Comparison::OtherFields(fields) = check(&b, &b.from) else {
            panic!("{name}: {:?}", check(&b, &b.from));
        };
        let again = move_images_checked(&b.file, &b.from, &b.to, &mut b.text, &mut b.data);
        assert_eq!(
            again,
            Err(NotMoved::NotFrom(Comparison::OtherFields(fields)))
        );
        let words = format!("the images are for another plan than they were to be moved from: {fields} relocated fields differ");
        assert_eq!(again.unwrap_err().to_string(), words);
        assert_eq!(
            (&b.text, &b.data),
            (&plain.0, &plain.1),
            "{name}: as they were"
        );
    }
}

#[test]
fn other_bytes_are_counted_and_lengths_are_judged() {
    let mut b = bench("exe-imports-32");
    b.text[7] ^= 1;
    b.text[9] ^= 1;
    b.data[150] = 1;
    let before = (b.text.clone(), b.data.clone());
    let moved = move_images_checked(&b.file, &b.from, &b.to, &mut b.text, &mut b.data);
    assert_eq!(moved, Err(NotMoved::NotFrom(Comparison::OtherBytes(3))));
    assert_eq!(
        moved.unwrap_err().to_string(),
        "the relocated fields are those of the plan that the images were to be moved from, but 3 other bytes are not the module's"
    );
    assert_eq!((&b.text, &b.data), (&before.0, &before.1));
    let room = Refusal {
        number: 20,
        item: 1,
        offset: 0,
    };
    assert_eq!(
        check_images(&b.file, &b.from, &b.text, &b.data[1..]),
        Err(room)
    );
    let moved = move_images_checked(&b.file, &b.from, &b.to, &mut b.text, &mut b.data[1..]);
    assert_eq!(moved, Err(NotMoved::Refused(room)));
}

#[test]
fn a_refusal_is_shown_in_words() {
    let refusal = module(&real("clang-app-32.o")).unwrap_err();
    let words = "refused 13 0 0: MODULE, the file is not a loadable module: its auxiliary header is too short, as in an object file that is not linked";
    assert_eq!(format!("{refusal:?}"), words);
    assert_eq!(
        format!("{:?}", Err::<(), _>(refusal)),
        format!("Err({words})")
    );
}

/// The archive is the one that this package was written for.
#[test]
fn header_and_archive_are_of_one_version() {
    let (package, archive) = versions();
    assert_eq!(package, archive);
    let header = include_str!("../../include/xcoff.h");
    assert!(header.contains(&format!("#define XCOFF_VERSION {package}\n")));
}
