//! The C interface of the kernel, as include/luchtrav.h declares it.

/// A reply that begins with number and place, as words that can be compared.
pub type Reply = [usize; 6];

/// The structs of the header, each made into words: those that it does not have are 0.
macro_rules! replies {
    ($($name:ident { $($field:ident: $type:ty),* })*) => {$(
        #[repr(C)]
        pub struct $name {
            number: usize,
            place: usize,
            $($field: $type,)*
        }

        impl From<$name> for Reply {
            fn from(said: $name) -> Reply {
                let words = [said.number, said.place $(, said.$field as usize)*];
                let mut reply = [0; 6];
                reply[..words.len()].copy_from_slice(&words);
                reply
            }
        }
    )*};
}

replies! {
    Done {}
    Move { changed: usize }
    Count { count: usize }
    Class { same: usize }
    Order { order: usize }
    Junction { set: u64, rows: usize }
    Value { value: u64 }
    Line { rank: usize, count: usize }
    Cell { found: usize, letter: usize, row: usize, column: usize }
}

/// The functions of the header: a slice in brackets is a pointer and a count, letter counts are a pointer alone.
macro_rules! functions {
    (@ $f:ident ($($given:ty),*) -> $reply:ty;) => {
        extern "C" {
            pub fn $f($(_: $given),*) -> $reply;
        }
    };
    (@ $f:ident ($($given:ty),*) -> $reply:ty; [mut $element:ty] $(, $($rest:tt)*)?) => {
        functions!(@ $f ($($given,)* *mut $element, usize) -> $reply; $($($rest)*)?);
    };
    (@ $f:ident ($($given:ty),*) -> $reply:ty; [$element:ty] $(, $($rest:tt)*)?) => {
        functions!(@ $f ($($given,)* *const $element, usize) -> $reply; $($($rest)*)?);
    };
    (@ $f:ident ($($given:ty),*) -> $reply:ty; $number:ty $(, $($rest:tt)*)?) => {
        functions!(@ $f ($($given,)* $number) -> $reply; $($($rest)*)?);
    };
    ($($f:ident($($taken:tt)*) -> $reply:ty;)*) => {
        $(functions!(@ $f () -> $reply; $($taken)*);)*
    };
}

functions! {
    luchtrav_check_word(usize, [u8]) -> Done;
    luchtrav_pair_of_word(usize, [u8], [mut u8], [mut u8], [mut u16], *mut u16) -> Count;
    luchtrav_junctions(usize, [u8]) -> Junction;
    luchtrav_raise_word(usize, usize, [mut u8]) -> Move;
    luchtrav_lower_word(usize, usize, [mut u8]) -> Move;
    luchtrav_raise_count_word(usize, usize, [u8]) -> Count;
    luchtrav_lower_count_word(usize, usize, [u8]) -> Count;
    luchtrav_same_class(usize, [u8], usize, [u8]) -> Class;
    luchtrav_compare_weights(usize, [u8], usize, [u8]) -> Order;
    luchtrav_check_tableau(usize, [u8], [u8]) -> Done;
    luchtrav_check_counted_tableau(usize, [u8], [u8], *const u16) -> Done;
    luchtrav_column_reading(usize, [u8], [u8], *const u16, [mut u8]) -> Count;
    luchtrav_raise_tableau(usize, usize, [mut u8], [u8], *mut u16) -> Move;
    luchtrav_lower_tableau(usize, usize, [mut u8], [u8], *mut u16) -> Move;
    luchtrav_raise_count_tableau(usize, usize, [u8], [u8], *const u16) -> Count;
    luchtrav_lower_count_tableau(usize, usize, [u8], [u8], *const u16) -> Count;
    luchtrav_same_class_of_tableaux(usize, [u8], [u8], *const u16, usize, [u8], [u8], *const u16) -> Class;
    luchtrav_compare_weights_of_tableaux(usize, [u8], [u8], *const u16, usize, [u8], [u8], *const u16) -> Order;
    luchtrav_look(usize, [u8], [u8], usize) -> Cell;
    luchtrav_cell_at([u8], [u8], usize) -> Cell;
    luchtrav_product(usize, [u8], [u8], *const u16, [u8], [u8], *const u16, [mut u8], [mut u8], *mut u16) -> Count;
    luchtrav_class_size(usize, [u8], [u8], *const u16) -> Value;
    luchtrav_class_word(usize, [u8], [u8], *const u16, u64, [mut u8]) -> Count;
    luchtrav_class_number(usize, [u8]) -> Value;
    luchtrav_check_pair(usize, [u8], [u8], [u16]) -> Done;
    luchtrav_check_counted_pair(usize, [u8], [u8], [u16], *const u16) -> Done;
    luchtrav_insert_letter(usize, usize, usize, [mut u8], [mut u8], [mut u16], *mut u16) -> Count;
    luchtrav_remove_oldest(usize, usize, [mut u8], [mut u8], [mut u16], *mut u16) -> Count;
    luchtrav_word_of_pair(usize, [u8], [u8], [u16], *const u16, [mut u8]) -> Count;
    luchtrav_tableau_line_of_word(usize, [u8], [mut u8]) -> Count;
    luchtrav_run_line_of_word(usize, [u8], [mut u8]) -> Count;
    luchtrav_write_word_line(usize, [u8], [mut u8]) -> Count;
    luchtrav_write_tableau_line(usize, [u8], [u8], [mut u8]) -> Count;
    luchtrav_write_run_line(usize, [u8], [u8], [mut u8]) -> Count;
    luchtrav_write_pair_line(usize, [u8], [u8], [u16], [mut u8]) -> Count;
    luchtrav_write_junction_line(usize, [u8], [mut u8]) -> Count;
    luchtrav_write_refusal_line(usize, usize, [mut u8]) -> Count;
    luchtrav_read_word_line([u8], [mut u8]) -> Line;
    luchtrav_read_tableau_line([u8], [mut u8], [mut u8], *mut u16) -> Line;
    luchtrav_read_run_line([u8], [mut u8], [mut u8], *mut u16) -> Line;
    luchtrav_read_pair_line([u8], [mut u8], [mut u8], [mut u16], *mut u16) -> Line;
    luchtrav_convert_lines([u8], [u8], [mut u8]) -> Count;
    luchtrav_tableau_to_runs([u8], [mut u8]) -> Count;
    luchtrav_runs_to_tableau([u8], [mut u8]) -> Count;
    luchtrav_answer([u8], [mut u8]) -> Count;
}
