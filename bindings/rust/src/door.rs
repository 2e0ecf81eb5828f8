//! The calls of the library, as `include/rezdolin.h` declares them.

use std::marker::PhantomData;

/// Bytes that are lent for a call.
#[repr(C)]
#[derive(Clone, Copy)]
pub struct Bytes<'a> {
    at: *const u8,
    len: usize,
    lent: PhantomData<&'a [u8]>,
}

impl<'a> Bytes<'a> {
    /// These bytes.
    pub fn new(bytes: &'a [u8]) -> Bytes<'a> {
        Bytes { at: bytes.as_ptr(), len: bytes.len(), lent: PhantomData }
    }
}

/// Values that are lent for a call.
#[repr(C)]
#[derive(Clone, Copy)]
pub struct List<'a, T> {
    at: *const T,
    len: usize,
    lent: PhantomData<&'a [T]>,
}

impl<'a, T> List<'a, T> {
    /// These values.
    pub fn new(values: &'a [T]) -> List<'a, T> {
        List { at: values.as_ptr(), len: values.len(), lent: PhantomData }
    }
}

/// The method `none`: the letters of the word.
pub const METHOD_NONE: u32 = 0x6e6f_6e65;

/// The method `password`.
pub const METHOD_PASSWORD: u32 = 1;

/// The method `publickey`.
pub const METHOD_PUBLICKEY: u32 = 2;

/// The method `publickey`, by a private key that is elsewhere.
pub const METHOD_SIGNED: u32 = 3;

/// The private half of a host key is put in.
pub const KEY_HERE: u32 = 1;

/// It is elsewhere.
pub const KEY_ELSEWHERE: u32 = 2;

/// A side is willing to be strict.
pub const STRICT_YES: u32 = 1;

/// A side isn't willing to be strict.
pub const STRICT_NO: u32 = 2;

/// The peer's version line is read as deployed peers write it.
pub const READING_DEPLOYED: u32 = 0;

/// The peer's version line is read by the letter of RFC 4253 section 4.2.
pub const READING_STRICT: u32 = 1;

#[repr(C)]
#[derive(Clone, Copy)]
pub struct SideInput<'a> {
    pub softwareversion: Bytes<'a>,
    pub comments: Bytes<'a>,
    pub kex_algorithms: Bytes<'a>,
    pub encryption_client_to_server: Bytes<'a>,
    pub encryption_server_to_client: Bytes<'a>,
    pub mac_client_to_server: Bytes<'a>,
    pub mac_server_to_client: Bytes<'a>,
    pub cookie: Bytes<'a>,
    pub exchange_random: Bytes<'a>,
    pub padding_seed: Bytes<'a>,
    pub strict: u32,
    pub reading: u32,
}

#[repr(C)]
pub struct AttemptInput<'a> {
    pub user: Bytes<'a>,
    pub service: Bytes<'a>,
    pub algorithm: Bytes<'a>,
    pub secret: Bytes<'a>,
    pub method: u32,
    pub ask: u32,
}

#[repr(C)]
pub struct ClientInput<'a> {
    pub side: SideInput<'a>,
    pub server_host_key_algorithms: Bytes<'a>,
    pub plan: List<'a, AttemptInput<'a>>,
    pub trusted_host_keys: List<'a, Bytes<'a>>,
    pub guess: u32,
    pub asks: u32,
}

#[repr(C)]
pub struct HostKeyInput<'a> {
    pub algorithm: Bytes<'a>,
    pub key: Bytes<'a>,
    pub place: u32,
}

#[repr(C)]
pub struct UserInput<'a> {
    pub user: Bytes<'a>,
    pub proof: Bytes<'a>,
    pub method: u32,
}

#[repr(C)]
pub struct ServerInput<'a> {
    pub side: SideInput<'a>,
    pub host_keys: List<'a, HostKeyInput<'a>>,
    pub services: Bytes<'a>,
    pub methods: Bytes<'a>,
    pub required: Bytes<'a>,
    pub banner: Bytes<'a>,
    pub notice_lines: List<'a, Bytes<'a>>,
    pub users: List<'a, UserInput<'a>>,
    pub tries: u32,
    pub asks: u32,
}

#[repr(C)]
#[derive(Clone, Copy, Default)]
pub struct StepAnswer {
    pub status: u32,
    pub config: u32,
    pub end: u32,
    pub fault: u32,
    pub detail: u32,
    pub used: usize,
    pub sent_len: usize,
    pub record_len: usize,
    pub told_len: usize,
}

#[repr(C)]
#[derive(Clone, Copy)]
pub struct BytesAnswer {
    pub status: u32,
    pub fault: u32,
    pub used: usize,
    pub len: usize,
}

unsafe extern "C" {
    fn rezdolin_client_begin(
        client: &ClientInput<'_>,
        next: *mut u8,
        next_len: usize,
        out: *mut u8,
        out_len: usize,
    ) -> StepAnswer;
    fn rezdolin_client_step(
        client: &ClientInput<'_>,
        record: *const u8,
        record_len: usize,
        piece: *const u8,
        piece_len: usize,
        next: *mut u8,
        next_len: usize,
        out: *mut u8,
        out_len: usize,
        told: *mut u8,
        told_len: usize,
    ) -> StepAnswer;
    fn rezdolin_client_answer(
        client: &ClientInput<'_>,
        record: *const u8,
        record_len: usize,
        answer: u32,
        signature: *const u8,
        signature_len: usize,
        next: *mut u8,
        next_len: usize,
        out: *mut u8,
        out_len: usize,
        told: *mut u8,
        told_len: usize,
    ) -> StepAnswer;
    fn rezdolin_client_disconnect(
        client: &ClientInput<'_>,
        record: *const u8,
        record_len: usize,
        reason: u32,
        description: *const u8,
        description_len: usize,
        out: *mut u8,
        out_len: usize,
    ) -> StepAnswer;
    fn rezdolin_server_begin(
        server: &ServerInput<'_>,
        next: *mut u8,
        next_len: usize,
        out: *mut u8,
        out_len: usize,
    ) -> StepAnswer;
    fn rezdolin_server_step(
        server: &ServerInput<'_>,
        record: *const u8,
        record_len: usize,
        piece: *const u8,
        piece_len: usize,
        next: *mut u8,
        next_len: usize,
        out: *mut u8,
        out_len: usize,
        told: *mut u8,
        told_len: usize,
    ) -> StepAnswer;
    fn rezdolin_server_answer(
        server: &ServerInput<'_>,
        record: *const u8,
        record_len: usize,
        answer: u32,
        signature: *const u8,
        signature_len: usize,
        next: *mut u8,
        next_len: usize,
        out: *mut u8,
        out_len: usize,
        told: *mut u8,
        told_len: usize,
    ) -> StepAnswer;
    fn rezdolin_server_disconnect(
        server: &ServerInput<'_>,
        record: *const u8,
        record_len: usize,
        reason: u32,
        description: *const u8,
        description_len: usize,
        out: *mut u8,
        out_len: usize,
    ) -> StepAnswer;
    fn rezdolin_wipe(bytes: *mut u8, bytes_len: usize);
    fn rezdolin_public_key(private_key: *const u8, private_key_len: usize, out: *mut u8, out_len: usize)
    -> BytesAnswer;
    fn rezdolin_read_identity(text: *const u8, text_len: usize, out: *mut u8, out_len: usize) -> BytesAnswer;
    fn rezdolin_is_signed(
        algorithm: *const u8,
        algorithm_len: usize,
        key: *const u8,
        key_len: usize,
        input: *const u8,
        input_len: usize,
        signature: *const u8,
        signature_len: usize,
    ) -> u32;
    fn rezdolin_seal(
        state: *mut u8,
        state_len: usize,
        padding_seed: *const u8,
        padding_seed_len: usize,
        payload: *const u8,
        payload_len: usize,
        out: *mut u8,
        out_len: usize,
    ) -> BytesAnswer;
    fn rezdolin_open(
        state: *mut u8,
        state_len: usize,
        received: *const u8,
        received_len: usize,
        out: *mut u8,
        out_len: usize,
    ) -> BytesAnswer;
}

// SAFETY of each call below: pointers and lengths are those of references that live for the call, and no memory that is
// written overlaps another. Nothing else is asked of a caller.

/// What is put in for an endpoint of either role.
#[derive(Clone, Copy)]
pub enum Input<'i> {
    Client(&'i ClientInput<'i>),
    Server(&'i ServerInput<'i>),
}

/// A call of an endpoint that stands.
#[derive(Clone, Copy)]
pub enum Call<'c> {
    Begin,
    Step(&'c [u8]),
    Answer(u32, &'c [u8]),
    Disconnect(u32, &'c [u8]),
}

/// The rooms of a call: for the next record, for what is sent, and for what is told.
pub struct Rooms {
    pub next: Secret,
    pub out: Secret,
    pub told: Secret,
}

/// Makes a call of an endpoint by its record.
pub fn call(input: Input<'_>, record: &[u8], call: Call<'_>, rooms: &mut Rooms) -> StepAnswer {
    let (next, out, told) = (&mut rooms.next.0[..], &mut rooms.out.0[..], &mut rooms.told.0[..]);
    let (next_len, out_len, told_len) = (next.len(), out.len(), told.len());
    let (next, out, told) = (next.as_mut_ptr(), out.as_mut_ptr(), told.as_mut_ptr());
    let (at, len) = (record.as_ptr(), record.len());
    unsafe {
        match (input, call) {
            (Input::Client(client), Call::Begin) => rezdolin_client_begin(client, next, next_len, out, out_len),
            (Input::Client(client), Call::Step(piece)) => rezdolin_client_step(
                client,
                at,
                len,
                piece.as_ptr(),
                piece.len(),
                next,
                next_len,
                out,
                out_len,
                told,
                told_len,
            ),
            (Input::Client(client), Call::Answer(answer, signature)) => rezdolin_client_answer(
                client,
                at,
                len,
                answer,
                signature.as_ptr(),
                signature.len(),
                next,
                next_len,
                out,
                out_len,
                told,
                told_len,
            ),
            (Input::Client(client), Call::Disconnect(reason, text)) => {
                rezdolin_client_disconnect(client, at, len, reason, text.as_ptr(), text.len(), out, out_len)
            }
            (Input::Server(server), Call::Begin) => rezdolin_server_begin(server, next, next_len, out, out_len),
            (Input::Server(server), Call::Step(piece)) => rezdolin_server_step(
                server,
                at,
                len,
                piece.as_ptr(),
                piece.len(),
                next,
                next_len,
                out,
                out_len,
                told,
                told_len,
            ),
            (Input::Server(server), Call::Answer(answer, signature)) => rezdolin_server_answer(
                server,
                at,
                len,
                answer,
                signature.as_ptr(),
                signature.len(),
                next,
                next_len,
                out,
                out_len,
                told,
                told_len,
            ),
            (Input::Server(server), Call::Disconnect(reason, text)) => {
                rezdolin_server_disconnect(server, at, len, reason, text.as_ptr(), text.len(), out, out_len)
            }
        }
    }
}

/// Overwrites bytes.
pub fn wipe(bytes: &mut [u8]) {
    unsafe { rezdolin_wipe(bytes.as_mut_ptr(), bytes.len()) }
}

/// Bytes that are overwritten when they are dropped. They never grow, so no copy of them is left behind.
#[derive(Default)]
pub struct Secret(pub Box<[u8]>);

impl Secret {
    /// So many zeros.
    pub fn room(len: usize) -> Secret {
        Secret(vec![0; len].into())
    }

    /// A copy of these bytes.
    pub fn copy(bytes: &[u8]) -> Secret {
        Secret(bytes.into())
    }
}

impl Drop for Secret {
    fn drop(&mut self) {
        wipe(&mut self.0);
    }
}

pub fn public_key(private_key: &[u8], out: &mut [u8]) -> BytesAnswer {
    unsafe { rezdolin_public_key(private_key.as_ptr(), private_key.len(), out.as_mut_ptr(), out.len()) }
}

pub fn read_identity(text: &[u8], out: &mut [u8]) -> BytesAnswer {
    unsafe { rezdolin_read_identity(text.as_ptr(), text.len(), out.as_mut_ptr(), out.len()) }
}

pub fn is_signed(algorithm: &[u8], key: &[u8], input: &[u8], signature: &[u8]) -> u32 {
    unsafe {
        rezdolin_is_signed(
            algorithm.as_ptr(),
            algorithm.len(),
            key.as_ptr(),
            key.len(),
            input.as_ptr(),
            input.len(),
            signature.as_ptr(),
            signature.len(),
        )
    }
}

pub fn seal(state: &mut [u8], padding_seed: &[u8], payload: &[u8], out: &mut [u8]) -> BytesAnswer {
    let (state_len, out_len) = (state.len(), out.len());
    unsafe {
        rezdolin_seal(
            state.as_mut_ptr(),
            state_len,
            padding_seed.as_ptr(),
            padding_seed.len(),
            payload.as_ptr(),
            payload.len(),
            out.as_mut_ptr(),
            out_len,
        )
    }
}

pub fn open(state: &mut [u8], received: &[u8], out: &mut [u8]) -> BytesAnswer {
    let (state_len, out_len) = (state.len(), out.len());
    unsafe {
        rezdolin_open(state.as_mut_ptr(), state_len, received.as_ptr(), received.len(), out.as_mut_ptr(), out_len)
    }
}
