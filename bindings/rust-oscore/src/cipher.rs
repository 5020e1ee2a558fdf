//! The keys of a context (RFC 8613, section 3.2), nonces (5.2), additional data (5.4) and AES-CCM-16-64-128.

use openssl::cipher::Cipher as Algorithm;
use openssl::cipher_ctx::CipherCtx;
use openssl::error::ErrorStack;
use openssl::hash::MessageDigest;
use openssl::pkey::PKey;
use openssl::sha::sha256;
use openssl::sign::Signer;

use crate::{Keys, Refusal};

pub(crate) const TAG: usize = 8;
pub(crate) const CHECK: usize = 16;
const KEY: usize = 16;
const NONCE: usize = 13;
const MOST_ID: usize = 7;
const MOST_WORD: usize = 32;
const PIV: usize = 5;
const BLOCK: usize = 32;
const AES_CCM_16_64_128: u8 = 10;
const NIL: u8 = 0xf6;

pub(crate) struct Cipher {
    sender_key: [u8; KEY],
    recipient_key: [u8; KEY],
    iv: [u8; NONCE],
}

/// The nonce is that of an ID and a Partial IV; kid and request_piv are the request's, whose message or response it is.
pub(crate) struct Binding<'a> {
    pub id: &'a [u8],
    pub piv: &'a [u8],
    pub kid: &'a [u8],
    pub request_piv: &'a [u8],
}

fn put_bytes(to: &mut Vec<u8>, bytes: &[u8]) {
    match bytes.len() as u8 {
        len @ 0..=23 => to.push(0x40 | len),
        len => to.extend([0x58, len]),
    }
    to.extend_from_slice(bytes);
}

fn put_text(to: &mut Vec<u8>, text: &str) {
    to.push(0x60 | text.len() as u8);
    to.extend_from_slice(text.as_bytes());
}

fn hmac(key: &[u8], text: &[u8]) -> Result<Vec<u8>, ErrorStack> {
    let key = PKey::hmac(key)?;
    let mut signer = Signer::new(MessageDigest::sha256(), &key)?;
    signer.sign_oneshot_to_vec(text)
}

/// HKDF SHA-256 (RFC 5869), of at most one block.
fn derive<const N: usize>(keys: &Keys, id: &[u8], kind: &str) -> Result<[u8; N], ErrorStack> {
    let mut info = vec![0x85];
    put_bytes(&mut info, id);
    match keys.id_context.as_slice() {
        [] => info.push(NIL),
        context => put_bytes(&mut info, context),
    }
    info.push(AES_CCM_16_64_128);
    put_text(&mut info, kind);
    info.extend([N as u8, 1]);
    let salt = if keys.salt.is_empty() { vec![0; BLOCK] } else { keys.salt.clone() };
    let made = hmac(&hmac(&salt, &keys.secret)?, &info)?;
    let mut key = [0; N];
    key.copy_from_slice(&made[..N]);
    Ok(key)
}

fn are_keys(keys: &Keys) -> bool {
    (1..=MOST_WORD).contains(&keys.secret.len())
        && keys.salt.len().max(keys.id_context.len()) <= MOST_WORD
        && keys.sender.len().max(keys.recipient.len()) <= MOST_ID
        && keys.sender != keys.recipient
}

impl Cipher {
    pub fn new(keys: &Keys) -> Result<Self, Refusal> {
        if !are_keys(keys) {
            return Err(Refusal::BadArgument);
        }
        let sender_key = derive(keys, &keys.sender, "Key")?;
        Ok(Self { sender_key, recipient_key: derive(keys, &keys.recipient, "Key")?, iv: derive(keys, &[], "IV")? })
    }

    /// Names these keys in the file of numbers.
    pub fn check(&self) -> [u8; CHECK] {
        let mut check = [0; CHECK];
        let all = [&self.sender_key[..], &self.recipient_key, &self.iv].concat();
        check.copy_from_slice(&sha256(&all)[..CHECK]);
        check
    }

    fn nonce(&self, of: &Binding) -> [u8; NONCE] {
        let mut nonce = [0; NONCE];
        nonce[0] = of.id.len() as u8;
        nonce[NONCE - PIV - of.id.len()..NONCE - PIV].copy_from_slice(of.id);
        nonce[NONCE - of.piv.len()..].copy_from_slice(of.piv);
        nonce.iter_mut().zip(self.iv).for_each(|(byte, iv)| *byte ^= iv);
        nonce
    }

    pub fn seal(&self, of: &Binding, text: &[u8]) -> Result<Vec<u8>, Refusal> {
        let (mut ctx, mut sealed, mut tag) = (CipherCtx::new()?, vec![0; text.len()], [0; TAG]);
        ctx.encrypt_init(Some(Algorithm::aes_128_ccm()), None, None)?;
        ctx.set_iv_length(NONCE)?;
        ctx.set_tag_length(TAG)?;
        ctx.encrypt_init(None, Some(&self.sender_key), Some(&self.nonce(of)))?;
        ctx.set_data_len(text.len())?;
        ctx.cipher_update(&additional(of), None)?;
        ctx.cipher_update(text, Some(&mut sealed))?;
        ctx.cipher_final(&mut [])?;
        ctx.tag(&mut tag)?;
        sealed.extend(tag);
        Ok(sealed)
    }

    pub fn open(&self, of: &Binding, sealed: &[u8]) -> Result<Vec<u8>, Refusal> {
        let Some((sealed, tag)) = sealed.split_last_chunk::<TAG>().filter(|it| !it.0.is_empty()) else {
            return Err(Refusal::Forged);
        };
        let (mut ctx, mut text) = (CipherCtx::new()?, vec![0; sealed.len()]);
        ctx.decrypt_init(Some(Algorithm::aes_128_ccm()), None, None)?;
        ctx.set_iv_length(NONCE)?;
        ctx.set_tag(tag)?;
        ctx.decrypt_init(None, Some(&self.recipient_key), Some(&self.nonce(of)))?;
        ctx.set_data_len(sealed.len())?;
        ctx.cipher_update(&additional(of), None)?;
        ctx.cipher_update(sealed, Some(&mut text)).map_err(|_| Refusal::Forged)?;
        Ok(text)
    }
}

impl Drop for Cipher {
    fn drop(&mut self) {
        for key in [&mut self.sender_key, &mut self.recipient_key] {
            key.fill(0);
            std::hint::black_box(key);
        }
    }
}

fn additional(of: &Binding) -> Vec<u8> {
    let mut external = vec![0x85, 1, 0x81, AES_CCM_16_64_128];
    for bytes in [of.kid, of.request_piv, &[]] {
        put_bytes(&mut external, bytes);
    }
    let mut all = vec![0x83];
    put_text(&mut all, "Encrypt0");
    put_bytes(&mut all, &[]);
    put_bytes(&mut all, &external);
    all
}
