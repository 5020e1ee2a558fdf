//! Contexts by lines of text: bindings/oscore/tests/lines.c says which.

use std::collections::HashMap;
use std::error::Error;
use std::io::{self, BufRead, Write};

use knifesilver_oscore::{Context, Datagram, Keys, Refusal};

fn bytes_of(text: &str) -> Result<Vec<u8>, Box<dyn Error>> {
    let text = text.trim_start_matches('-');
    (0..text.len() / 2).map(|i| Ok(u8::from_str_radix(&text[2 * i..2 * i + 2], 16)?)).collect()
}

fn shown(bytes: &[u8]) -> String {
    if bytes.is_empty() {
        return "-".into();
    }
    bytes.iter().map(|it| format!("{it:02x}")).collect()
}

fn made(words: &[&str]) -> Result<Result<Context, Refusal>, Box<dyn Error>> {
    let [secret, salt, id_context, sender, recipient, file, begins] = words else {
        return Err("new of 7 words".into());
    };
    let keys = Keys {
        secret: bytes_of(secret)?,
        salt: bytes_of(salt)?,
        id_context: bytes_of(id_context)?,
        sender: bytes_of(sender)?,
        recipient: bytes_of(recipient)?,
    };
    let file = Some(file.as_ref()).filter(|_| *file != "-");
    Ok(Context::new(&keys, file, *begins == "begins"))
}

fn passed(it: Result<Datagram, Refusal>) -> String {
    match it {
        Ok(it) => format!("{} {}", it.kind as i32, shown(&it.bytes)),
        Err(why) => format!("{} -", why as i32),
    }
}

fn main() -> Result<(), Box<dyn Error>> {
    let mut contexts = HashMap::new();
    for line in io::stdin().lock().lines() {
        let line = line?;
        let words: Vec<&str> = line.split_whitespace().collect();
        let said = match words[..] {
            ["new", place, ref rest @ ..] => {
                contexts.remove(place);
                match made(rest)? {
                    Ok(context) => {
                        contexts.insert(place.to_string(), context);
                        "0 -".into()
                    }
                    Err(why) => format!("{} -", why as i32),
                }
            }
            ["free", place] => {
                contexts.remove(place);
                "0 -".into()
            }
            [kind, place, now, data] => {
                let context = contexts.get_mut(place).ok_or("no context")?;
                let (now, data) = (now.parse()?, bytes_of(data)?);
                passed(if kind == "seal" { context.seal(now, &data) } else { context.open(now, &data) })
            }
            _ => return Err("which line?".into()),
        };
        writeln!(io::stdout(), "{said}")?;
    }
    Ok(())
}
