//! The calls of foreituka.h, linked into this process twice: from the archive and from the plain C version.

macro_rules! calls {
    ($($name:ident($($arg:ident: $type:ty),*) -> $reply:ty, $archive:ident, $plain:ident;)*) => {
        unsafe extern "C" {
            $(fn $archive($($arg: $type),*) -> $reply;
              fn $plain($($arg: $type),*) -> $reply;)*
        }
        #[derive(Clone, Copy)]
        pub struct Calls {
            pub name: &'static str,
            $(pub $name: unsafe extern "C" fn($($arg: $type),*) -> $reply,)*
        }
        pub const ARCHIVE: Calls = Calls { name: "the archive", $($name: $archive,)* };
        pub const PLAIN: Calls = Calls { name: "plain C", $($name: $plain,)* };
    };
}

/// Kinds of gates.
pub mod kind {
    pub const H: u32 = 0;
    pub const X: u32 = 1;
    pub const Z: u32 = 2;
    pub const S: u32 = 3;
    pub const SDG: u32 = 4;
    pub const T: u32 = 5;
    pub const TDG: u32 = 6;
    pub const RZ: u32 = 7;
    pub const CNOT: u32 = 8;
    pub const CZ: u32 = 9;
    pub const CCX: u32 = 10;
    pub const MEASURE: u32 = 12;
    pub const RESET: u32 = 13;
    pub const Y: u32 = 15;
    pub const SX: u32 = 16;
    pub const SWAP: u32 = 19;
    pub const CY: u32 = 20;
    pub const CH: u32 = 25;
    pub const CSWAP: u32 = 26;
}

calls! {
    circuit_channel(qubits: u32, bits: u32, store: *const u8, store_bytes: usize, gates: *const u32, gate_words: usize,
        limits: *const u64, result: *mut i64, result_words: usize, work: *mut i64, work_words: usize, index: *mut u64) -> u32,
        foreituka_circuit_channel, plain_circuit_channel;
    layered_channel(qubits: u32, bits: u32, store: *const u8, store_bytes: usize, gates: *const u32, gate_words: usize, ends: *const u32,
        end_count: usize, limits: *const u64, result: *mut i64, result_words: usize, work: *mut i64, work_words: usize, index: *mut u64) -> u32,
        foreituka_layered_channel, plain_layered_channel;
    layered_verdict(qubits: u32, bits: u32, store: *const u8, store_bytes: usize, gates: *const u32, gate_words: usize, ends: *const u32,
        end_count: usize, limits: *const u64, result_words: usize, work_words: usize, index: *mut u64) -> u32,
        foreituka_layered_verdict, plain_layered_verdict;
    plain_channel(qubits: u32, bits: u32, store: *const u8, store_bytes: usize, gates: *const u32, gate_words: usize,
        limits: *const u64, result: *mut i64, result_words: usize, work: *mut i64, work_words: usize, index: *mut u64) -> u32,
        foreituka_plain_channel, plain_plain_channel;
    plain_verdict(qubits: u32, bits: u32, store: *const u8, store_bytes: usize, gates: *const u32, gate_words: usize,
        limits: *const u64, result_words: usize, work_words: usize, index: *mut u64) -> u32,
        foreituka_plain_verdict, plain_plain_verdict;
    judge_schedule(qubits: u32, bits: u32, old: *const u32, old_words: usize, new: *const u32, new_words: usize, table: *const u32,
        entries: usize, index: *mut u64) -> u32,
        foreituka_judge_schedule, plain_judge_schedule;
    kept_start(qubits: u32, bits: u32, words: *mut i64, count: usize) -> u32, foreituka_kept_start, plain_kept_start;
    kept_append(words: *mut i64, count: usize, gate: *const u32, index: *mut u64) -> u32, foreituka_kept_append, plain_kept_append;
    kept_remove(words: *mut i64, count: usize) -> u32, foreituka_kept_remove, plain_kept_remove;
    kept_replace(words: *mut i64, count: usize, position: usize, gate: *const u32, index: *mut u64) -> u32,
        foreituka_kept_replace, plain_kept_replace;
    kept_verdict(words: *const i64, count: usize, store: *const u8, store_bytes: usize, limits: *const u64, result_words: usize,
        work_words: usize) -> u32,
        foreituka_kept_verdict, plain_kept_verdict;
    kept_gates(words: *const i64, count: usize, gates: *mut u32, gate_words: usize) -> u32, foreituka_kept_gates, plain_kept_gates;
    compare_list(count: usize, words: *const u32, word_count: usize, stores: *const u8, store_bytes: usize, limits: *const u64,
        allowance: u64, left: *mut i64, left_words: usize, right: *mut i64, right_words: usize, work: *mut i64, work_words: usize,
        answers: *mut u64, answer_words: usize, scalars: *mut i64, scalar_words: usize, total: *mut u64, index: *mut u64) -> u32,
        foreituka_compare_list, plain_compare_list;
    circuit_unitary(qubits: u32, gates: *const u32, gate_words: usize, limits: *const u64, result: *mut i64, result_words: usize,
        work: *mut i64, work_words: usize, index: *mut u64) -> u32,
        foreituka_circuit_unitary, plain_circuit_unitary;
    compare(left: *const i64, left_words: usize, right: *const i64, right_words: usize, place: *mut u64, scalars: *mut i64) -> u32,
        foreituka_compare, plain_compare;
    classical_blocks(channel: *const i64, channel_words: usize, result: *mut i64, result_words: usize) -> u32,
        foreituka_classical_blocks, plain_classical_blocks;
    povm_effects(channel: *const i64, channel_words: usize, result: *mut i64, result_words: usize) -> u32,
        foreituka_povm_effects, plain_povm_effects;
    pack_channel(channel: *const i64, channel_words: usize, result: *mut i64, result_words: usize, index: *mut u64) -> u32,
        foreituka_pack_channel, plain_pack_channel;
    unpack_channel(packed: *const i64, packed_words: usize, result: *mut i64, result_words: usize, index: *mut u64) -> u32,
        foreituka_unpack_channel, plain_unpack_channel;
    write_plain(channel: *const i64, channel_words: usize, result: *mut i64, result_words: usize, index: *mut u64) -> u32,
        foreituka_write_plain, plain_write_plain;
    read_plain(words: *const i64, word_count: usize, result: *mut i64, result_words: usize, index: *mut u64) -> u32,
        foreituka_read_plain, plain_read_plain;
    lookup(channel: *const i64, channel_words: usize, store: *const u8, store_bytes: usize) -> usize,
        foreituka_lookup, plain_lookup;
    equivalent_up_to_global_phase(left_dim: usize, left: *const i64, left_words: usize, right_dim: usize, right: *const i64,
        right_words: usize) -> u32,
        foreituka_equivalent_up_to_global_phase, plain_equivalent_up_to_global_phase;
    read_qasm(text: *const u8, text_bytes: usize, gates: *mut u32, gate_words: usize, counts: *mut u32, words: *mut usize,
        position: *mut usize) -> u32,
        foreituka_read_qasm, plain_read_qasm;
    write_qasm(qubits: u32, bits: u32, gates: *const u32, gate_words: usize, out: *mut u8, out_bytes: usize, bytes: *mut usize,
        index: *mut u64) -> u32,
        foreituka_write_qasm, plain_write_qasm;
    scalar_integer(n: i64, out: *mut i64) -> u32, foreituka_scalar_integer, plain_scalar_integer;
    scalar_zero(out: *mut i64) -> u32, foreituka_scalar_zero, plain_scalar_zero;
    scalar_i(out: *mut i64) -> u32, foreituka_scalar_i, plain_scalar_i;
    scalar_inv_sqrt_two(out: *mut i64) -> u32, foreituka_scalar_inv_sqrt_two, plain_scalar_inv_sqrt_two;
    scalar_omega(k: u32, out: *mut i64) -> u32, foreituka_scalar_omega, plain_scalar_omega;
    scalar_neg(x: *const i64, out: *mut i64) -> u32, foreituka_scalar_neg, plain_scalar_neg;
    scalar_conj(x: *const i64, out: *mut i64) -> u32, foreituka_scalar_conj, plain_scalar_conj;
    scalar_half(x: *const i64, out: *mut i64) -> u32, foreituka_scalar_half, plain_scalar_half;
    scalar_add(x: *const i64, y: *const i64, out: *mut i64) -> u32, foreituka_scalar_add, plain_scalar_add;
    scalar_mul(x: *const i64, y: *const i64, out: *mut i64) -> u32, foreituka_scalar_mul, plain_scalar_mul;
}

/// max_qubits, max_matrix_cells, max_multiply_terms, max_operations, max_branches, max_classical_bits.
pub const CEILINGS: [u64; 6] = [5, 262_144, 10_000_000, 1024, 64, 64];
