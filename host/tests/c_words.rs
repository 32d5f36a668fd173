//! include/xcoff_words.h has the words of every refusal for C. It is made from those of this package, by this test:
//!
//!     MAKE_WORDS=1 cargo test --test c_words
//!
//! writes it anew; without that the test fails where the two differ. The inline functions are tried in tests/c/check.c.

use std::fmt::Write;
use std::path::PathBuf;
use std::process::Command;
use xcoff::Refusal;

/// An item that no rule speaks of by itself: where the words have it, they name the item.
const ANY: u64 = 4_000_000_007;

const START: &str = r#"/*
 * The words of a refusal, in English, for C. Made by host/tests/c_words.rs from the words of the Rust library.
 */
#ifndef XCOFF_WORDS_H
#define XCOFF_WORDS_H

#include <inttypes.h>
#include <stdint.h>
#include <stdio.h>
#include <string.h>

#ifdef __cplusplus
extern "C" {
#endif

/* Of each number its name, and the words of its items: those of one item, or of all others, with % for the item. */
typedef struct xcoff_words {
    uint64_t number;
    int one;            /* 1: of `item` alone */
    uint64_t item;
    const char *name;
    const char *meaning;
} xcoff_words;

/* The first row of a number, or the last row; then the item's own, or that of all others. */
static inline const xcoff_words *xcoff_words_in(const xcoff_words *all, uint64_t number, uint64_t item)
{
    size_t n = 0;
    while (all[n].number != number && all[n].number != 0)
        n++;
    while (all[n].one && all[n].item != item)
        n++;
    return &all[n];
}

static inline const xcoff_words *xcoff_words_of(uint64_t number, uint64_t item)
{
    static const xcoff_words all[] = {
"#;

const OBJECT: &str = r#"    };
    return xcoff_words_in(all, number, item);
}

/* The same where a function on an object file refuses: of some numbers it has other items. */
static inline const xcoff_words *xcoff_object_words_of(uint64_t number, uint64_t item)
{
    static const xcoff_words all[] = {
"#;

const END: &str = r#"    };
    const xcoff_words *own = xcoff_words_in(all, number, item);
    return own->number ? own : xcoff_words_of(number, item);
}

/* A number's name, such as "LIMIT". */
static inline const char *xcoff_refusal_name(uint64_t number)
{
    return xcoff_words_of(number, 0)->name;
}

static inline int xcoff_words_put(const xcoff_words *words, uint64_t number, uint64_t item, uint64_t offset, char *text,
                                  size_t room)
{
    const char *rest = words->meaning;
    char meaning[400];
    size_t used = 0;
    while (*rest && used + 21 < sizeof meaning) {
        if (*rest == '%')
            used += (size_t)snprintf(meaning + used, sizeof meaning - used, "%" PRIu64, item);
        else
            meaning[used++] = *rest;
        rest++;
    }
    meaning[used] = 0;
    return snprintf(text, room, "refused %" PRIu64 " %" PRIu64 " %" PRIu64 ": %s, %s", number, item, offset, words->name,
                    meaning);
}

/* "refused N I O: NAME, what it means", cut where `room` bytes are too few, as snprintf does; its answer is snprintf's. */
static inline int xcoff_refusal_words(uint64_t number, uint64_t item, uint64_t offset, char *text, size_t room)
{
    return xcoff_words_put(xcoff_words_of(number, item), number, item, offset, text, room);
}

/* The same of a refusal by a function on an object file. */
static inline int xcoff_object_refusal_words(uint64_t number, uint64_t item, uint64_t offset, char *text, size_t room)
{
    return xcoff_words_put(xcoff_object_words_of(number, item), number, item, offset, text, room);
}

#ifdef __cplusplus
}
#endif

#endif
"#;

fn refusal(number: u64, item: u64) -> Refusal {
    Refusal {
        number,
        item,
        offset: 0,
    }
}

/// The rows of a number: one for each item that has words of its own, and one for all others.
fn rows(text: &mut String, number: u64, meaning: fn(&Refusal) -> String) {
    let name = refusal(number, 0).name();
    let any = meaning(&refusal(number, ANY)).replace(&ANY.to_string(), "%");
    let mut row = |one: u8, item: u64, meaning: &str| {
        assert!(!meaning.contains(['"', '\\']) && meaning.len() < 350);
        writeln!(
            text,
            "        {{{number}, {one}, {item}, \"{name}\", \"{meaning}\"}},"
        )
        .unwrap();
    };
    for item in 0..10 {
        let own = meaning(&refusal(number, item));
        if own != any.replace('%', &item.to_string()) {
            row(1, item, &own);
        }
    }
    row(0, 0, &any);
}

fn made() -> String {
    let mut text = START.to_string();
    let known = || (1..100).filter(|&n| refusal(n, 0).name() != "UNKNOWN");
    // The last row, with number 0, is for every other number.
    for number in known().chain([0]) {
        rows(&mut text, number, Refusal::meaning);
    }
    text += OBJECT;
    let items = || (0..10).chain([ANY]);
    let differs = |&n: &u64| items().any(|i| is_another(&refusal(n, i)));
    for number in known().filter(differs).chain([0]) {
        rows(&mut text, number, Refusal::object_meaning);
    }
    text + END
}

fn is_another(refusal: &Refusal) -> bool {
    refusal.meaning() != refusal.object_meaning()
}

fn root() -> PathBuf {
    PathBuf::from(env!("CARGO_MANIFEST_DIR")).join("..")
}

#[test]
fn the_words_in_c_are_those_of_the_rust_library() {
    let path = root().join("include/xcoff_words.h");
    if std::env::var_os("MAKE_WORDS").is_some() {
        std::fs::write(&path, made()).unwrap();
    }
    assert_eq!(std::fs::read_to_string(&path).unwrap(), made());
}

/// Each number that has words has its constant.
#[test]
fn every_number_has_its_constant_in_c() {
    let header = std::fs::read_to_string(root().join("include/xcoff_inline.h")).unwrap();
    let known = (1..100).filter(|&n| refusal(n, 0).name() != "UNKNOWN");
    for number in known {
        let constant = format!("    XCOFF_REFUSED_{} = {number}", refusal(number, 0).name());
        let found = header
            .lines()
            .any(|line| line.trim_end_matches(',') == constant);
        assert!(found, "{constant}");
    }
}

/// Compiled and run: each number with items that have words of their own and items that have not.
#[test]
fn what_c_prints_is_what_rust_prints() {
    let folder = std::env::temp_dir().join(format!("xcoff-words-{}", std::process::id()));
    std::fs::create_dir(&folder).unwrap();
    let program = r#"#include "xcoff_words.h"
int main(void)
{
    char text[500];
    for (uint64_t n = 0; n < 60; n++)
        for (uint64_t i = 0; i < 12; i++) {
            xcoff_refusal_words(n, i == 11 ? UINT64_MAX : i, n * i, text, sizeof text);
            puts(text);
            xcoff_object_refusal_words(n, i == 11 ? UINT64_MAX : i, n * i, text, sizeof text);
            puts(text);
        }
    return xcoff_refusal_words(1, 2, 3, text, 9) < 9 || strcmp(text, "refused ") != 0;
}
"#;
    std::fs::write(folder.join("words.c"), program).unwrap();
    let built = Command::new("cc")
        .args([
            "-std=c99",
            "-Wall",
            "-Wextra",
            "-pedantic",
            "-Werror",
            "words.c",
            "-o",
            "words",
            "-I",
        ])
        .arg(root().join("include").canonicalize().unwrap())
        .current_dir(&folder)
        .status();
    assert!(built.unwrap().success());
    let ran = Command::new(folder.join("words")).output().unwrap();
    std::fs::remove_dir_all(&folder).unwrap();
    assert!(ran.status.success());
    let mut expected = String::new();
    for number in 0..60 {
        for i in 0..12 {
            let item = if i == 11 { u64::MAX } else { i };
            let offset = number * i;
            let refusal = Refusal {
                number,
                item,
                offset,
            };
            writeln!(expected, "{refusal}").unwrap();
            let name = refusal.name();
            let meaning = refusal.object_meaning();
            let numbers = format!("refused {number} {item} {offset}");
            writeln!(expected, "{numbers}: {name}, {meaning}").unwrap();
        }
    }
    assert_eq!(String::from_utf8(ran.stdout).unwrap(), expected);
}
