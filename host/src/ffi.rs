//! The C interface of the proved library (include/xcoff.h), and all unsafe code of this package.
//!
//! Each function takes a slice, which Rust guarantees to be readable and unchanged during the call: that is all the
//! library asks. A slice is passed as a pointer and a length.

/// What every answer begins with: number 0 where the call is accepted.
#[repr(C)]
pub struct Head {
    pub number: u64,
    pub item: u64,
    pub offset: u64,
}

#[repr(C)]
pub struct Open {
    pub head: Head,
    pub bits: u64,
    pub sections: u64,
    pub symbols: u64,
    pub opthdr: u64,
    pub flags: u64,
}

#[repr(C)]
pub struct Section {
    pub head: Head,
    pub paddr: u64,
    pub vaddr: u64,
    pub size: u64,
    pub scnptr: u64,
    pub flag: u64,
    pub raw: u64,
    pub relptr: u64,
    pub nreloc: u64,
    pub lnnoptr: u64,
    pub nlnno: u64,
}

#[repr(C)]
pub struct Range {
    pub head: Head,
    pub start: u64,
    pub length: u64,
}

#[repr(C)]
pub struct Symbol {
    pub head: Head,
    pub value: u64,
    pub scnum: i64,
    pub ntype: u64,
    pub sclass: u64,
    pub numaux: u64,
    pub has_visibility: u64,
    pub visibility: u64,
}

#[repr(C)]
pub struct Walk {
    pub head: Head,
    pub visited: u64,
    pub end: u64,
    pub cause: Head,
}

#[repr(C)]
pub struct Csect {
    pub head: Head,
    pub kind: u64,
    pub align: u64,
    pub smclas: u64,
    pub length: u64,
}

#[repr(C)]
pub struct Part {
    pub number: u64,
    pub address: u64,
    pub size: u64,
}

#[repr(C)]
pub struct Anchor {
    pub section: u64,
    pub address: u64,
}

#[repr(C)]
pub struct Module {
    pub head: Head,
    pub bits: u64,
    pub text: Part,
    pub data: Part,
    pub bss: Part,
    pub loader: u64,
    pub image: u64,
    pub symbols: u64,
    pub relocations: u64,
    pub ids: u64,
    pub entry: Anchor,
    pub toc: Anchor,
}

#[repr(C)]
pub struct LoaderSymbol {
    pub head: Head,
    pub value: u64,
    pub scnum: u64,
    pub smtype: u64,
    pub smclas: u64,
    pub ifile: u64,
    pub parm: u64,
}

#[repr(C)]
pub struct Sheet {
    pub head: Head,
    pub text: u64,
    pub data: u64,
    pub count: u64,
}

#[repr(C)]
pub struct Call {
    pub head: Head,
    pub has_entry: u64,
    pub entry: u64,
    pub has_toc: u64,
    pub toc: u64,
}

/// The last call's answer has the fields of [`Call`] in their order.
#[repr(C)]
pub struct Replay {
    pub last: Call,
    pub calls: u64,
    pub accepted: u64,
}

#[repr(C)]
pub struct Length {
    pub head: Head,
    pub length: u64,
}

#[repr(C)]
pub struct Count {
    pub head: Head,
    pub count: u64,
}

#[repr(C)]
pub struct Line {
    pub head: Head,
    pub entry: u64,
    pub address: u64,
    pub line: u64,
    pub symbol: u64,
}

#[repr(C)]
pub struct Address {
    pub head: Head,
    pub address: u64,
}

/// The last call's answer has the fields of [`Address`] in their order.
#[repr(C)]
pub struct TableReplay {
    pub last: Address,
    pub calls: u64,
    pub accepted: u64,
}

#[repr(C)]
pub struct Object {
    pub head: Head,
    pub sections: u64,
    pub entries: u64,
    pub length: u64,
}

#[repr(C)]
pub struct ObjectReplay {
    pub last: Head,
    pub calls: u64,
    pub accepted: u64,
}

/// The memory of an address table.
type Table = [u64; 4_097];

extern "C" {
    fn xcoff_version() -> u64;
    fn xcoff_open(file: *const u8, length: usize) -> Open;
    fn xcoff_section(file: *const u8, length: usize, n: u64) -> Section;
    fn xcoff_section_name(file: *const u8, length: usize, n: u64) -> Range;
    fn xcoff_symbol(file: *const u8, length: usize, i: u64) -> Symbol;
    fn xcoff_symbol_name(file: *const u8, length: usize, i: u64) -> Range;
    fn xcoff_walk(file: *const u8, length: usize) -> Walk;
    fn xcoff_csect(file: *const u8, length: usize, i: u64) -> Csect;
    fn xcoff_module(file: *const u8, length: usize) -> Module;
    fn xcoff_loader_symbol(file: *const u8, length: usize, i: u64) -> LoaderSymbol;
    fn xcoff_loader_symbol_name(file: *const u8, length: usize, i: u64) -> Range;
    fn xcoff_import_path(file: *const u8, length: usize, n: u64) -> Range;
    fn xcoff_import_base(file: *const u8, length: usize, n: u64) -> Range;
    fn xcoff_import_member(file: *const u8, length: usize, n: u64) -> Range;
    fn xcoff_sheet_head(sheet: *const u8, length: usize) -> Sheet;
    fn xcoff_read_sheet(sheet: *const u8, length: usize, list: *mut u64, places: usize) -> Sheet;
    fn xcoff_write_sheet(
        text: u64,
        data: u64,
        list: *const u64,
        places: usize,
        sheet: *mut u8,
        length: usize,
    ) -> Head;
    fn xcoff_build(
        file: *const u8,
        length: usize,
        text_address: u64,
        data_address: u64,
        list: *const u64,
        places: usize,
        text: *mut u8,
        text_length: usize,
        data: *mut u8,
        data_length: usize,
    ) -> Call;
    fn xcoff_move(
        file: *const u8,
        length: usize,
        from_text: u64,
        from_data: u64,
        from_list: *const u64,
        from_places: usize,
        to_text: u64,
        to_data: u64,
        to_list: *const u64,
        to_places: usize,
        text: *mut u8,
        text_length: usize,
        data: *mut u8,
        data_length: usize,
    ) -> Call;
    fn xcoff_replay(
        file: *const u8,
        length: usize,
        script: *const u64,
        numbers: usize,
        text: *mut u8,
        text_length: usize,
        data: *mut u8,
        data_length: usize,
    ) -> Replay;
    fn xcoff_records_length(
        file: *const u8,
        length: usize,
        text_address: u64,
        data_address: u64,
        list: *const u64,
        places: usize,
    ) -> Length;
    fn xcoff_write_records(
        file: *const u8,
        length: usize,
        text_address: u64,
        data_address: u64,
        list: *const u64,
        places: usize,
        text: *const u8,
        text_length: usize,
        data: *const u8,
        data_length: usize,
        records: *mut u8,
        records_length: usize,
    ) -> Head;
    fn xcoff_read_records(
        file: *const u8,
        length: usize,
        text_address: u64,
        data_address: u64,
        list: *const u64,
        places: usize,
        records: *const u8,
        records_length: usize,
        text: *mut u8,
        text_length: usize,
        data: *mut u8,
        data_length: usize,
    ) -> Head;
    fn xcoff_symbol_table(file: *const u8, length: usize, rows: *mut u64, numbers: usize) -> Walk;
    fn xcoff_loader_symbol_table(
        file: *const u8,
        length: usize,
        rows: *mut u64,
        numbers: usize,
    ) -> Head;
    fn xcoff_relocation_table(
        file: *const u8,
        length: usize,
        rows: *mut u64,
        numbers: usize,
    ) -> Head;
    fn xcoff_import_table(file: *const u8, length: usize, rows: *mut u64, numbers: usize) -> Head;
    fn xcoff_find_line(file: *const u8, length: usize, section: u64, address: u64) -> Line;
    fn xcoff_line_count(file: *const u8, length: usize, section: u64) -> Count;
    fn xcoff_line_table(
        file: *const u8,
        length: usize,
        section: u64,
        rows: *mut u64,
        numbers: usize,
    ) -> Head;
    fn xcoff_table_add(
        table: *mut Table,
        bench: u64,
        file_id: u64,
        name: *const u8,
        name_length: usize,
        address: u64,
    ) -> Head;
    fn xcoff_table_remove(
        table: *mut Table,
        bench: u64,
        file_id: u64,
        name: *const u8,
        name_length: usize,
    ) -> Head;
    fn xcoff_table_find(
        table: *const Table,
        bench: u64,
        file_id: u64,
        name: *const u8,
        name_length: usize,
    ) -> Address;
    fn xcoff_table_fill(
        file: *const u8,
        length: usize,
        table: *const Table,
        bench: u64,
        list: *mut u64,
        places: usize,
    ) -> Head;
    fn xcoff_table_replay(
        file: *const u8,
        length: usize,
        script: *const u64,
        numbers: usize,
        table: *mut Table,
        list: *mut u64,
        places: usize,
    ) -> TableReplay;
    fn xcoff_table_count(table: *const Table, bench: u64) -> Count;
    fn xcoff_table_rows(table: *const Table, bench: u64, rows: *mut u64, numbers: usize) -> Head;
    fn xcoff_write_module(
        file: *const u8,
        length: usize,
        text_address: u64,
        data_address: u64,
        list: *const u64,
        places: usize,
        output: *mut u8,
        output_length: usize,
    ) -> Head;
    fn xcoff_salvage_count(file: *const u8, length: usize) -> Count;
    fn xcoff_salvage(
        file: *const u8,
        length: usize,
        copy: *mut u8,
        copy_length: usize,
        report: *mut u8,
        report_length: usize,
    ) -> Count;
    fn xcoff_object(file: *const u8, length: usize) -> Object;
    fn xcoff_object_sections(
        file: *const u8,
        length: usize,
        rows: *mut u64,
        numbers: usize,
    ) -> Head;
    fn xcoff_object_entries(
        file: *const u8,
        length: usize,
        section: u64,
        rows: *mut u64,
        numbers: usize,
    ) -> Head;
    fn xcoff_build_object(
        file: *const u8,
        length: usize,
        plan: *const u64,
        places: usize,
        buffer: *mut u8,
        size: usize,
    ) -> Head;
    fn xcoff_move_object(
        file: *const u8,
        length: usize,
        from: *const u64,
        from_places: usize,
        to: *const u64,
        to_places: usize,
        buffer: *mut u8,
        size: usize,
    ) -> Head;
    fn xcoff_replay_object(
        file: *const u8,
        length: usize,
        script: *const u64,
        numbers: usize,
        buffer: *mut u8,
        size: usize,
    ) -> ObjectReplay;
}

pub fn version() -> u64 {
    unsafe { xcoff_version() }
}

pub fn open(file: &[u8]) -> Open {
    unsafe { xcoff_open(file.as_ptr(), file.len()) }
}

pub fn section(file: &[u8], n: u64) -> Section {
    unsafe { xcoff_section(file.as_ptr(), file.len(), n) }
}

pub fn section_name(file: &[u8], n: u64) -> Range {
    unsafe { xcoff_section_name(file.as_ptr(), file.len(), n) }
}

pub fn symbol(file: &[u8], i: u64) -> Symbol {
    unsafe { xcoff_symbol(file.as_ptr(), file.len(), i) }
}

pub fn symbol_name(file: &[u8], i: u64) -> Range {
    unsafe { xcoff_symbol_name(file.as_ptr(), file.len(), i) }
}

pub fn walk(file: &[u8]) -> Walk {
    unsafe { xcoff_walk(file.as_ptr(), file.len()) }
}

pub fn csect(file: &[u8], i: u64) -> Csect {
    unsafe { xcoff_csect(file.as_ptr(), file.len(), i) }
}

pub fn module(file: &[u8]) -> Module {
    unsafe { xcoff_module(file.as_ptr(), file.len()) }
}

pub fn loader_symbol(file: &[u8], i: u64) -> LoaderSymbol {
    unsafe { xcoff_loader_symbol(file.as_ptr(), file.len(), i) }
}

pub fn loader_symbol_name(file: &[u8], i: u64) -> Range {
    unsafe { xcoff_loader_symbol_name(file.as_ptr(), file.len(), i) }
}

pub fn import_path(file: &[u8], n: u64) -> Range {
    unsafe { xcoff_import_path(file.as_ptr(), file.len(), n) }
}

pub fn import_base(file: &[u8], n: u64) -> Range {
    unsafe { xcoff_import_base(file.as_ptr(), file.len(), n) }
}

pub fn import_member(file: &[u8], n: u64) -> Range {
    unsafe { xcoff_import_member(file.as_ptr(), file.len(), n) }
}

pub fn sheet_head(sheet: &[u8]) -> Sheet {
    unsafe { xcoff_sheet_head(sheet.as_ptr(), sheet.len()) }
}

pub fn read_sheet(sheet: &[u8], list: &mut [u64]) -> Sheet {
    unsafe { xcoff_read_sheet(sheet.as_ptr(), sheet.len(), list.as_mut_ptr(), list.len()) }
}

pub fn write_sheet(text: u64, data: u64, list: &[u64], sheet: &mut [u8]) -> Head {
    unsafe {
        xcoff_write_sheet(
            text,
            data,
            list.as_ptr(),
            list.len(),
            sheet.as_mut_ptr(),
            sheet.len(),
        )
    }
}

pub fn build(file: &[u8], at: (u64, u64), list: &[u64], text: &mut [u8], data: &mut [u8]) -> Call {
    unsafe {
        xcoff_build(
            file.as_ptr(),
            file.len(),
            at.0,
            at.1,
            list.as_ptr(),
            list.len(),
            text.as_mut_ptr(),
            text.len(),
            data.as_mut_ptr(),
            data.len(),
        )
    }
}

pub fn move_images(
    file: &[u8],
    from: (u64, u64),
    from_list: &[u64],
    to: (u64, u64),
    to_list: &[u64],
    text: &mut [u8],
    data: &mut [u8],
) -> Call {
    unsafe {
        xcoff_move(
            file.as_ptr(),
            file.len(),
            from.0,
            from.1,
            from_list.as_ptr(),
            from_list.len(),
            to.0,
            to.1,
            to_list.as_ptr(),
            to_list.len(),
            text.as_mut_ptr(),
            text.len(),
            data.as_mut_ptr(),
            data.len(),
        )
    }
}

pub fn replay(file: &[u8], script: &[u64], text: &mut [u8], data: &mut [u8]) -> Replay {
    unsafe {
        xcoff_replay(
            file.as_ptr(),
            file.len(),
            script.as_ptr(),
            script.len(),
            text.as_mut_ptr(),
            text.len(),
            data.as_mut_ptr(),
            data.len(),
        )
    }
}

pub fn records_length(file: &[u8], at: (u64, u64), list: &[u64]) -> Length {
    unsafe {
        xcoff_records_length(
            file.as_ptr(),
            file.len(),
            at.0,
            at.1,
            list.as_ptr(),
            list.len(),
        )
    }
}

pub fn write_records(
    file: &[u8],
    at: (u64, u64),
    list: &[u64],
    text: &[u8],
    data: &[u8],
    records: &mut [u8],
) -> Head {
    unsafe {
        xcoff_write_records(
            file.as_ptr(),
            file.len(),
            at.0,
            at.1,
            list.as_ptr(),
            list.len(),
            text.as_ptr(),
            text.len(),
            data.as_ptr(),
            data.len(),
            records.as_mut_ptr(),
            records.len(),
        )
    }
}

pub fn read_records(
    file: &[u8],
    at: (u64, u64),
    list: &[u64],
    records: &[u8],
    text: &mut [u8],
    data: &mut [u8],
) -> Head {
    unsafe {
        xcoff_read_records(
            file.as_ptr(),
            file.len(),
            at.0,
            at.1,
            list.as_ptr(),
            list.len(),
            records.as_ptr(),
            records.len(),
            text.as_mut_ptr(),
            text.len(),
            data.as_mut_ptr(),
            data.len(),
        )
    }
}

pub fn symbol_table(file: &[u8], rows: &mut [u64]) -> Walk {
    unsafe { xcoff_symbol_table(file.as_ptr(), file.len(), rows.as_mut_ptr(), rows.len()) }
}

pub fn loader_symbol_table(file: &[u8], rows: &mut [u64]) -> Head {
    unsafe { xcoff_loader_symbol_table(file.as_ptr(), file.len(), rows.as_mut_ptr(), rows.len()) }
}

pub fn relocation_table(file: &[u8], rows: &mut [u64]) -> Head {
    unsafe { xcoff_relocation_table(file.as_ptr(), file.len(), rows.as_mut_ptr(), rows.len()) }
}

pub fn import_table(file: &[u8], rows: &mut [u64]) -> Head {
    unsafe { xcoff_import_table(file.as_ptr(), file.len(), rows.as_mut_ptr(), rows.len()) }
}

pub fn find_line(file: &[u8], section: u64, address: u64) -> Line {
    unsafe { xcoff_find_line(file.as_ptr(), file.len(), section, address) }
}

pub fn line_count(file: &[u8], section: u64) -> Count {
    unsafe { xcoff_line_count(file.as_ptr(), file.len(), section) }
}

pub fn line_table(file: &[u8], section: u64, rows: &mut [u64]) -> Head {
    unsafe {
        xcoff_line_table(
            file.as_ptr(),
            file.len(),
            section,
            rows.as_mut_ptr(),
            rows.len(),
        )
    }
}

pub fn table_add(table: &mut Table, bench: u64, file_id: u64, name: &[u8], address: u64) -> Head {
    unsafe { xcoff_table_add(table, bench, file_id, name.as_ptr(), name.len(), address) }
}

pub fn table_remove(table: &mut Table, bench: u64, file_id: u64, name: &[u8]) -> Head {
    unsafe { xcoff_table_remove(table, bench, file_id, name.as_ptr(), name.len()) }
}

pub fn table_find(table: &Table, bench: u64, file_id: u64, name: &[u8]) -> Address {
    unsafe { xcoff_table_find(table, bench, file_id, name.as_ptr(), name.len()) }
}

pub fn table_fill(file: &[u8], table: &Table, bench: u64, list: &mut [u64]) -> Head {
    unsafe {
        xcoff_table_fill(
            file.as_ptr(),
            file.len(),
            table,
            bench,
            list.as_mut_ptr(),
            list.len(),
        )
    }
}

pub fn write_module(file: &[u8], at: (u64, u64), list: &[u64], output: &mut [u8]) -> Head {
    unsafe {
        xcoff_write_module(
            file.as_ptr(),
            file.len(),
            at.0,
            at.1,
            list.as_ptr(),
            list.len(),
            output.as_mut_ptr(),
            output.len(),
        )
    }
}

pub fn table_replay(
    file: &[u8],
    script: &[u64],
    table: &mut Table,
    list: &mut [u64],
) -> TableReplay {
    unsafe {
        xcoff_table_replay(
            file.as_ptr(),
            file.len(),
            script.as_ptr(),
            script.len(),
            table,
            list.as_mut_ptr(),
            list.len(),
        )
    }
}

pub fn table_count(table: &Table, bench: u64) -> Count {
    unsafe { xcoff_table_count(table, bench) }
}

pub fn table_rows(table: &Table, bench: u64, rows: &mut [u64]) -> Head {
    unsafe { xcoff_table_rows(table, bench, rows.as_mut_ptr(), rows.len()) }
}

pub fn salvage_count(file: &[u8]) -> Count {
    unsafe { xcoff_salvage_count(file.as_ptr(), file.len()) }
}

pub fn salvage(file: &[u8], copy: &mut [u8], report: &mut [u8]) -> Count {
    unsafe {
        xcoff_salvage(
            file.as_ptr(),
            file.len(),
            copy.as_mut_ptr(),
            copy.len(),
            report.as_mut_ptr(),
            report.len(),
        )
    }
}

pub fn object(file: &[u8]) -> Object {
    unsafe { xcoff_object(file.as_ptr(), file.len()) }
}

pub fn object_sections(file: &[u8], rows: &mut [u64]) -> Head {
    unsafe { xcoff_object_sections(file.as_ptr(), file.len(), rows.as_mut_ptr(), rows.len()) }
}

pub fn object_entries(file: &[u8], section: u64, rows: &mut [u64]) -> Head {
    unsafe {
        xcoff_object_entries(
            file.as_ptr(),
            file.len(),
            section,
            rows.as_mut_ptr(),
            rows.len(),
        )
    }
}

pub fn build_object(file: &[u8], plan: &[u64], buffer: &mut [u8]) -> Head {
    unsafe {
        xcoff_build_object(
            file.as_ptr(),
            file.len(),
            plan.as_ptr(),
            plan.len(),
            buffer.as_mut_ptr(),
            buffer.len(),
        )
    }
}

pub fn move_object(file: &[u8], from: &[u64], to: &[u64], buffer: &mut [u8]) -> Head {
    unsafe {
        xcoff_move_object(
            file.as_ptr(),
            file.len(),
            from.as_ptr(),
            from.len(),
            to.as_ptr(),
            to.len(),
            buffer.as_mut_ptr(),
            buffer.len(),
        )
    }
}

pub fn replay_object(file: &[u8], script: &[u64], buffer: &mut [u8]) -> ObjectReplay {
    unsafe {
        xcoff_replay_object(
            file.as_ptr(),
            file.len(),
            script.as_ptr(),
            script.len(),
            buffer.as_mut_ptr(),
            buffer.len(),
        )
    }
}
