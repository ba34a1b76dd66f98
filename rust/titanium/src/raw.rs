//! The C functions of include/titanium.h.

extern "C" {
    pub fn titanium_public_key_bytes(set: usize) -> usize;
    pub fn titanium_secret_key_bytes(set: usize) -> usize;
    pub fn titanium_ciphertext_bytes(set: usize) -> usize;
    pub fn titanium_work_numbers(set: usize) -> usize;
    pub fn titanium_keypair(
        set: usize,
        seed: *const u8,
        seed_length: usize,
        public_key: *mut u8,
        public_key_length: usize,
        secret_key: *mut u8,
        secret_key_length: usize,
        work: *mut u32,
        work_length: usize,
    ) -> u64;
    pub fn titanium_encapsulate(
        set: usize,
        public_key: *const u8,
        public_key_length: usize,
        message: *const u8,
        message_length: usize,
        ciphertext: *mut u8,
        ciphertext_length: usize,
        shared_key: *mut u8,
        shared_key_length: usize,
        work: *mut u32,
        work_length: usize,
    ) -> u64;
    pub fn titanium_decapsulate(
        set: usize,
        secret_key: *const u8,
        secret_key_length: usize,
        ciphertext: *const u8,
        ciphertext_length: usize,
        shared_key: *mut u8,
        shared_key_length: usize,
        work: *mut u32,
        work_length: usize,
    ) -> u64;
    pub fn titanium_encryption_keypair(
        set: usize,
        seed: *const u8,
        seed_length: usize,
        public_key: *mut u8,
        public_key_length: usize,
        secret_key: *mut u8,
        secret_key_length: usize,
        work: *mut u32,
        work_length: usize,
    ) -> u64;
    pub fn titanium_encrypt(
        set: usize,
        public_key: *const u8,
        public_key_length: usize,
        message: *const u8,
        message_length: usize,
        seed: *const u8,
        seed_length: usize,
        ciphertext: *mut u8,
        ciphertext_length: usize,
        work: *mut u32,
        work_length: usize,
    ) -> u64;
    pub fn titanium_decrypt(
        set: usize,
        secret_key: *const u8,
        secret_key_length: usize,
        ciphertext: *const u8,
        ciphertext_length: usize,
        message: *mut u8,
        message_length: usize,
        work: *mut u32,
        work_length: usize,
    ) -> u64;
    pub fn titanium_seal_and_read(
        set: usize,
        seed: *const u8,
        seed_length: usize,
        message: *const u8,
        message_length: usize,
        sealing_seed: *const u8,
        sealing_seed_length: usize,
        public_key: *mut u8,
        public_key_length: usize,
        secret_key: *mut u8,
        secret_key_length: usize,
        ciphertext: *mut u8,
        ciphertext_length: usize,
        message_read: *mut u8,
        message_read_length: usize,
        work: *mut u32,
        work_length: usize,
    ) -> u64;
    pub fn titanium_share_a_key(
        set: usize,
        seed: *const u8,
        seed_length: usize,
        message: *const u8,
        message_length: usize,
        public_key: *mut u8,
        public_key_length: usize,
        secret_key: *mut u8,
        secret_key_length: usize,
        ciphertext: *mut u8,
        ciphertext_length: usize,
        sent_key: *mut u8,
        sent_key_length: usize,
        received_key: *mut u8,
        received_key_length: usize,
        work: *mut u32,
        work_length: usize,
    ) -> u64;
    pub fn titanium_shake256(input: *const u8, input_length: usize, out: *mut u8, out_length: usize) -> u64;
    pub fn titanium_kmac256(
        key: *const u8,
        key_length: usize,
        input: *const u8,
        input_length: usize,
        customization: *const u8,
        customization_length: usize,
        out: *mut u8,
        out_length: usize,
    ) -> u64;
    pub fn titanium_kmacxof256(
        key: *const u8,
        key_length: usize,
        input: *const u8,
        input_length: usize,
        customization: *const u8,
        customization_length: usize,
        out: *mut u8,
        out_length: usize,
    ) -> u64;
    pub fn titanium_draw_residues(set: usize, bytes: *const u8, bytes_length: usize, out: *mut u32, out_length: usize) -> u64;
    pub fn titanium_draw_errors(set: usize, bytes: *const u8, bytes_length: usize, out: *mut i32, out_length: usize) -> u64;
    pub fn titanium_draw_multipliers(
        set: usize,
        bytes: *const u8,
        bytes_length: usize,
        first: usize,
        out: *mut i32,
        out_length: usize,
    ) -> u64;
    pub fn titanium_middle_product(
        set: usize,
        a: *const u32,
        a_length: usize,
        b: *const u32,
        b_length: usize,
        out: *mut u32,
        out_length: usize,
    ) -> u64;
    pub fn titanium_transformed_middle_product(
        set: usize,
        a: *const u32,
        a_length: usize,
        b: *const u32,
        b_length: usize,
        out: *mut u32,
        out_length: usize,
        work: *mut u32,
        work_length: usize,
    ) -> u64;
    pub fn titanium_partial_transform(
        set: usize,
        d1: usize,
        d2: usize,
        m: usize,
        input: *const u32,
        input_length: usize,
        output: *mut u32,
        output_length: usize,
    ) -> u64;
    pub fn titanium_partial_inverse(
        set: usize,
        d1: usize,
        d2: usize,
        m: usize,
        input: *const u32,
        input_length: usize,
        output: *mut u32,
        output_length: usize,
    ) -> u64;
    pub fn titanium_key_of_numbers(
        set: usize,
        a: *const u32,
        a_length: usize,
        s: *const u32,
        s_length: usize,
        e: *const i32,
        e_length: usize,
        b: *mut u32,
        b_length: usize,
    ) -> u64;
    pub fn titanium_sealing_of_numbers(
        set: usize,
        a: *const u32,
        a_length: usize,
        b: *const u32,
        b_length: usize,
        r: *const i32,
        r_length: usize,
        message: *const u32,
        message_length: usize,
        c1: *mut u32,
        c1_length: usize,
        c2: *mut u32,
        c2_length: usize,
    ) -> u64;
    pub fn titanium_reading_of_numbers(
        set: usize,
        c1: *const u32,
        c1_length: usize,
        c2: *const u32,
        c2_length: usize,
        s: *const u32,
        s_length: usize,
        bits: *mut u32,
        bits_length: usize,
    ) -> u64;
    pub fn titanium_noise_sheet(
        input: *const u8,
        input_length: usize,
        text: *mut u8,
        text_length: usize,
        work: *mut u32,
        work_length: usize,
    ) -> usize;
}
