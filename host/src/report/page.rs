//! The page. Everything that comes from files or names goes through `text`, so that it never becomes markup; and the page allows only its own
//! script and style, by their hashes, and nothing from the network.

use std::collections::BTreeSet;
use std::time::SystemTime;

use sha2::{Digest, Sha256};

use super::{by_text, letter, End, Entry, Picture, Pictures, Sender, Sent, Wanted};
use crate::files;
use crate::identity::Identity;
use crate::names::{self, tags};
use crate::values::counted;

const STYLE: &str = include_str!("page.css");
const SCRIPT: &str = include_str!("page.js");

/// Text that is no markup, within an element or a quoted attribute.
fn text(plain: &str) -> String {
    html_escape::encode_safe(plain).into_owned()
}

/// Text from a file, which may run from right to left.
fn given(plain: &str) -> String {
    format!("<bdi>{}</bdi>", text(plain))
}

fn hash(source: &str) -> String {
    format!("'sha256-{}'", base64::encode(Sha256::digest(source.as_bytes())))
}

fn image(picture: &Picture, class: &str) -> String {
    format!(
        "<figure class=\"{class}\"><img alt=\"{0}\" width=\"{1}\" height=\"{2}\" loading=\"lazy\" src=\"data:image/png;base64,{3}\">\
         <figcaption>{0}</figcaption></figure>",
        text(&picture.about),
        picture.width,
        picture.height,
        base64::encode(&picture.png)
    )
}

/// A DICOM date and time in common notation; any other text unchanged.
fn when(stamp: &str) -> String {
    let digits = stamp.len() >= 14 && stamp.as_bytes()[..14].iter().all(u8::is_ascii_digit);
    match digits {
        true => format!(
            "{}-{}-{} {}:{}:{}",
            &stamp[..4],
            &stamp[4..6],
            &stamp[6..8],
            &stamp[8..10],
            &stamp[10..12],
            &stamp[12..14]
        ),
        false => String::from(stamp),
    }
}

fn named(name: &str) -> String {
    match name {
        "" => String::from("<i>not named</i>"),
        name => given(name),
    }
}

/// Institution and station on one line.
fn both(sender: &Sender) -> String {
    match (sender.institution.as_str(), sender.station.as_str()) {
        ("", "") => String::from("<i>not named</i>"),
        (one, "") | ("", one) => given(one),
        (institution, station) => format!("{}, {}", given(institution), given(station)),
    }
}

fn tiles(entries: &[Entry], senders: &[Sent]) -> String {
    let count = |end| entries.iter().filter(|entry| entry.end() == end).count();
    let tile = |class: &str, number: usize, word: &str| format!("<li class=\"{class}\"><b>{number}</b> {word}</li>");
    [
        tile("all", entries.len(), if entries.len() == 1 { "file" } else { "files" }),
        tile("accepted", count(End::Accepted), "accepted"),
        tile("refused", count(End::Refused), "refused"),
        tile("unread", count(End::Unread), End::Unread.word()),
        tile("all", count(End::Other), "not ours"),
        // Only with --settle are files arriving.
        match count(End::Arriving) {
            0 => String::new(),
            number => tile("all", number, "arriving"),
        },
        tile("all", senders.len(), if senders.len() == 1 { "sender" } else { "senders" }),
    ]
    .concat()
}

/// A line of the senders' table.
fn sender_row(number: usize, sent: &Sent, entries: &[Entry]) -> String {
    let chips: String = sent
        .by(entries)
        .into_iter()
        .map(|(by, count)| {
            let by = by_text(by);
            format!("<button type=\"button\" class=\"chip\" data-sender=\"{number}\" data-by=\"{by}\">{by} <b>&times; {count}</b></button> ")
        })
        .collect();
    let refused = sent.count(entries, End::Refused);
    let link = if refused > 0 { format!("<a href=\"#letter-{number}\">letter</a>") } else { String::new() };
    format!(
        "<tr><td><button type=\"button\" class=\"name\" data-sender=\"{number}\">{}</button></td><td>{}</td><td class=\"number\">{}</td>\
         <td class=\"number\">{}</td><td class=\"number\">{refused}</td><td>{chips}</td><td>{link}</td></tr>\n",
        named(&sent.sender.institution),
        named(&sent.sender.station),
        sent.entries.len(),
        sent.count(entries, End::Accepted),
    )
}

/// What identifies a run.
fn identity(identity: &Identity, patient: bool) -> String {
    let lines: String = identity
        .shown(patient)
        .map(|(field, value)| format!("<dt>{}</dt><dd>{}</dd>", text(names::name(field.tag)), given(value)))
        .collect();
    if lines.is_empty() {
        return String::from("<p>Nothing identifies it.</p>");
    }
    format!("<dl>{lines}</dl>")
}

fn details(entry: &Entry, patient: bool) -> String {
    let mut said = String::new();
    if entry.end() != End::Accepted {
        said.push_str(&format!("<p class=\"sentence\">{}</p>", text(entry.sentence())));
    }
    if let Some(judged) = entry.judged() {
        let found: String = judged.found.iter().map(|finding| format!("<li>{}</li>", given(&finding.text))).collect();
        if !found.is_empty() && entry.looked.other.is_none() {
            said.push_str(&format!("<div class=\"found\"><b>Found</b><ul>{found}</ul></div>"));
        }
        if let Some(hint) = judged.hint.as_ref().filter(|_| entry.looked.other.is_none()) {
            said.push_str(&format!("<p>{}</p>", given(hint)));
        }
        said.push_str(&identity(&judged.identity, patient));
    }
    let shown = match &entry.looked.seen {
        Ok((_, pictures)) => pictures
            .thumbnails
            .iter()
            .map(|picture| image(picture, "frame"))
            .chain(pictures.plot.iter().map(|plot| image(plot, "plot")))
            .collect(),
        Err(_) => String::new(),
    };
    format!("<div class=\"inner\"><div class=\"said\">{said}</div><div class=\"shown\">{shown}</div></div>")
}

/// A run: a line of the table, and its details below it. The attributes hold what it is sorted and filtered by.
fn run(place: usize, entry: &Entry, sender: Option<usize>, patient: bool) -> String {
    let empty = Pictures::default();
    let pictures = entry.looked.seen.as_ref().map_or(&empty, |(_, pictures)| pictures);
    let answer = entry.judged().map(|judged| judged.answer).unwrap_or_default();
    let by = entry.by();
    let acquired = entry.identity().and_then(|identity| identity.value(tags::ACQUISITION_DATETIME)).unwrap_or_default();
    let from = entry.sender();
    let frame = if answer.frame > 0 { answer.frame.to_string() } else { String::new() };
    let size = match pictures.frames {
        0 => String::new(),
        frames => format!("{frames} <small>of {} &times; {}</small>", pictures.size.0, pictures.size.1),
    };
    format!(
        "<tbody class=\"run {class}\" data-place=\"{place}\" data-file=\"{file}\" data-sender=\"{sender}\" data-from=\"{sorted}\" data-verdict=\"{word}\" \
         data-by=\"{by}\" data-order=\"{order}\" data-frame=\"{frame_number}\" data-frames=\"{frames}\" data-acquired=\"{stamp}\">\n\
         <tr><th scope=\"row\">{named}</th><td>{from}</td><td><span class=\"verdict\">{word}</span></td><td>{by}</td>\
         <td class=\"number\">{frame}</td><td class=\"number\">{size}</td><td class=\"time\">{time}</td></tr>\n\
         <tr class=\"details\"><td colspan=\"7\">{details}</td></tr>\n</tbody>\n",
        class = entry.end().verdict().replace(' ', "-"),
        file = text(&entry.path),
        sender = sender.map_or_else(String::new, |number| number.to_string()),
        sorted = text(&format!("{} {}", from.institution, from.station)),
        word = entry.end().word(),
        by = by.map_or_else(String::new, by_text),
        order = by.map_or(0, |(code, rule)| 1000 * code + rule),
        frame_number = answer.frame,
        frames = pictures.frames,
        stamp = text(acquired),
        named = given(&entry.path),
        from = if sender.is_some() { both(&from) } else { String::new() },
        time = text(&when(acquired)),
        details = details(entry, patient),
    )
}

fn options(values: impl IntoIterator<Item = (String, String)>) -> String {
    values.into_iter().map(|(value, shown)| format!("<option value=\"{value}\">{shown}</option>")).collect()
}

/// What the runs can be filtered by.
fn filters(entries: &[Entry], senders: &[Sent]) -> String {
    let by: BTreeSet<(u32, u32)> = entries.iter().filter_map(Entry::by).collect();
    let verdicts = End::ALL.map(|end| (String::from(end.word()), String::from(end.word())));
    let senders = senders.iter().enumerate().map(|(number, sent)| {
        let (one, other) = (&sent.sender.institution, &sent.sender.station);
        let shown = [one, other].into_iter().filter(|name| !name.is_empty()).cloned().collect::<Vec<_>>().join(", ");
        (number.to_string(), if shown.is_empty() { String::from("not named") } else { text(&shown) })
    });
    format!(
        "<form id=\"filters\"><label>Search <input type=\"search\" id=\"search\" placeholder=\"file, UID, word\"></label>\
         <label>Verdict <select id=\"verdict\"><option value=\"\">all</option>{}</select></label>\
         <label>Refused by <select id=\"by\"><option value=\"\">all</option>{}</select></label>\
         <label>Sender <select id=\"sender\"><option value=\"\">all</option>{}</select></label>\
         <button type=\"reset\">Show all</button><label><input type=\"checkbox\" id=\"details\" checked> details</label>\
         <output id=\"shown\">{count} of {count}</output></form>",
        options(verdicts),
        options(by.into_iter().map(|by| (by_text(by), by_text(by)))),
        options(senders),
        count = entries.len(),
    )
}

fn letters(entries: &[Entry], senders: &[Sent], patient: bool) -> String {
    let mut all = String::new();
    for (number, sent) in senders.iter().enumerate() {
        if let Some(letter) = letter::text(sent, entries, patient) {
            all.push_str(&format!(
                "<section id=\"letter-{number}\"><h3>{}</h3><button type=\"button\" class=\"copy\">Copy</button>\
                 <textarea readonly rows=\"{}\" aria-label=\"letter to the sender\">{}</textarea></section>\n",
                both(&sent.sender),
                letter.lines().count().clamp(4, 24),
                text(&letter)
            ));
        }
    }
    match all.is_empty() {
        true => String::from("<p>No run was refused.</p>"),
        false => all,
    }
}

/// How every page starts.
pub const START: &str = "<!DOCTYPE html>\n<html lang=\"en\"><head><meta charset=\"utf-8\">\n\
    <meta http-equiv=\"Content-Security-Policy\" content=\"default-src 'none'; img-src data:; style-src ";

/// The whole page.
pub fn made(wanted: &Wanted, entries: &[Entry], senders: &[Sent]) -> String {
    let folders: Vec<String> = wanted.inputs.named.iter().map(|path| text(&files::printed(path))).collect();
    let mut of = vec![None; entries.len()];
    for (number, sent) in senders.iter().enumerate() {
        sent.entries.iter().for_each(|&place| of[place] = Some(number));
    }
    let rows: String = entries
        .iter()
        .zip(of)
        .enumerate()
        .map(|(place, (entry, sender))| run(place, entry, sender, wanted.patient))
        .collect();
    let lines: String = senders.iter().enumerate().map(|(number, sent)| sender_row(number, sent, entries)).collect();
    format!(
        "{START}{style_hash}; script-src {script_hash}; \
         base-uri 'none'; form-action 'none'\">\n\
         <meta name=\"viewport\" content=\"width=device-width, initial-scale=1\"><title>luux: {count}</title>\n<style>{STYLE}</style></head>\n<body>\n\
         <header><h1>Report on {count}</h1><p>{folders} &middot; made {now} &middot; luux {version}</p>\
         <ul class=\"tiles\">{tiles}</ul></header>\n\
         <section id=\"senders\"><h2>Senders</h2><div class=\"wide\"><table><thead><tr><th>Institution</th><th>Station</th><th class=\"number\">Runs</th>\
         <th class=\"number\">Accepted</th><th class=\"number\">Refused</th><th>Refused by</th><th>Letter</th></tr></thead><tbody>\n{lines}</tbody></table></div></section>\n\
         <section id=\"runs\"><h2>Runs</h2>{filters}<div class=\"wide\"><table id=\"table\"><thead><tr>{heads}</tr></thead>\n{rows}</table></div>\
         <p id=\"none\" hidden>No run matches.</p></section>\n\
         <section id=\"letters\"><h2>Letters</h2>{letters}</section>\n<script>{SCRIPT}</script></body></html>\n",
        style_hash = hash(STYLE),
        script_hash = hash(SCRIPT),
        count = counted(entries.len(), "file"),
        folders = folders.join(", "),
        now = humantime::format_rfc3339_seconds(SystemTime::now()).to_string().replace('T', " ").replace('Z', " UTC"),
        version = env!("CARGO_PKG_VERSION"),
        tiles = tiles(entries, senders),
        filters = filters(entries, senders),
        heads = HEADS.map(|(key, name)| format!("<th aria-sort=\"none\"><button type=\"button\" data-key=\"{key}\">{name}</button></th>")).concat(),
        letters = letters(entries, senders, wanted.patient),
    )
}

/// The columns of the runs, by the attribute that each is sorted by.
const HEADS: [(&str, &str); 7] = [
    ("file", "File"),
    ("from", "Sender"),
    ("verdict", "Verdict"),
    ("order", "Refused by"),
    ("frame", "Frame"),
    ("frames", "Frames"),
    ("acquired", "Acquired"),
];

#[cfg(test)]
mod tests {
    use super::*;

    #[test]
    fn dates_and_times() {
        assert_eq!(when("20240305050607"), "2024-03-05 05:06:07");
        assert_eq!(when("20240305050607.123+0100"), "2024-03-05 05:06:07");
        for other in ["", "2024", "2024030505060x", "\u{E9}0240305050607"] {
            assert_eq!(when(other), other);
        }
    }

    #[test]
    fn nothing_becomes_markup() {
        let made = given("<b a=\"1\" c='2'>&");
        assert!(made.starts_with("<bdi>&lt;b a=&quot;1&quot;") && made.ends_with("&gt;&amp;</bdi>"), "{made}");
        assert_eq!((named(""), named("A")), (String::from("<i>not named</i>"), String::from("<bdi>A</bdi>")));
        let sender =
            |institution: &str, station: &str| Sender { institution: institution.into(), station: station.into() };
        assert_eq!(both(&sender("A", "B")), "<bdi>A</bdi>, <bdi>B</bdi>");
        assert_eq!((both(&sender("", "B")), both(&sender("", ""))), (named("B"), named("")));
    }
}
