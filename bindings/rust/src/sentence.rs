//! A call and its answer in a sentence, by the library of tools.

use crate::{entries, Answer, Numbers};

/// The bytes that every sentence fits in.
const ROOM: usize = 160;

/// The sentence, with its full stop and without a newline; or 18 or 19, where the numbers are no call or one is out of
/// range. The answer may be any four numbers.
///
/// ```
/// use nazsombet::{codes, sentence, Answer, Call};
///
/// let broken_off = Answer { code: codes::BROKEN_OFF, count: 1, badge: 0, message: 0 };
/// let abort = Call::Abort { endpoint: 0, allowance: 1, badge: 7 };
/// let text = "Abort badge 7 at endpoint 0 with allowance 1: broken off, count 1.";
/// assert_eq!(sentence(abort, &broken_off).as_deref(), Ok(text));
/// let nowhere = Call::CreateEndpoint { endpoint: 64 };
/// assert_eq!(sentence(nowhere, &Answer::default()), Err(codes::RANGE));
/// ```
pub fn sentence(call: impl Into<Numbers>, answer: &Answer) -> Result<String, u32> {
    let call = call.into();
    let mut out = [0; ROOM];
    let mut used = 0;
    // SAFETY: the call, the answer, the buffer and the length are apart, and `repr(C)` gives six words and four.
    let code = unsafe {
        entries::nazsombet_sentence(&call, answer, out.as_mut_ptr(), out.len(), &mut used)
    };
    match code {
        0 => Ok(String::from_utf8_lossy(&out[..used]).trim_end().to_string()),
        _ => Err(code),
    }
}
