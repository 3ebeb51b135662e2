//! One table in any of its spellings: free spaces, letter case, leading zeros,
//! hex or plain bytes, spelled-out defaults, modifiers apart from their pattern,
//! ip_id for ip.id.

use crate::random::Random;
use crate::table::*;
use crate::words::*;

/// How freely a text is spelled, each in percent.
pub struct Spell<'a> {
    pub random: &'a mut Random,
    pub spaces: u64,
    pub capitals: u64,
    pub zeros: u64,
    pub hex: u64,
    pub defaults: u64,
    pub mixed: u64,
    /// ip.id = N as ip_id N.
    pub ip_id: u64,
}

impl<'a> Spell<'a> {
    pub fn any(random: &'a mut Random) -> Spell<'a> {
        let spaces = random.pick(&[0, 0, 20, 60]);
        let capitals = random.pick(&[0, 0, 10, 50]);
        let zeros = random.pick(&[0, 0, 30]);
        let hex = random.pick(&[0, 0, 20, 100]);
        let defaults = random.pick(&[0, 30, 100]);
        let mixed = random.pick(&[0, 0, 50]);
        let ip_id = random.pick(&[50, 100]);
        Spell { random, spaces, capitals, zeros, hex, defaults, mixed, ip_id }
    }

    /// The shortest style: no free space, nothing spelled out.
    pub fn compact(random: &'a mut Random) -> Spell<'a> {
        Spell {
            random,
            spaces: 0,
            capitals: 0,
            zeros: 0,
            hex: 0,
            defaults: 0,
            mixed: 0,
            ip_id: 100,
        }
    }

    pub fn text(&mut self, table: &Table) -> Vec<u8> {
        let options = self.options(table);
        self.frame(&options)
    }

    pub fn frame(&mut self, options: &[String]) -> Vec<u8> {
        let mut text = "F-SBID(".to_string() + &self.gap(0);
        for option in options {
            text += option;
            text += &self.gap(0);
        }
        (text + ")").into_bytes()
    }

    /// The options of a table in an order that reads as the same table.
    pub fn options(&mut self, table: &Table) -> Vec<String> {
        let mut options = Vec::new();
        let mut modifiers: Vec<String> = Vec::new();
        for item in &table.items {
            let is_pattern = matches!(item, Item::Pattern(_));
            // Modifiers may wait behind tests, not behind the next pattern.
            if is_pattern || !self.random.chance(self.mixed) {
                options.append(&mut modifiers);
            }
            match item {
                Item::Test(test) => options.push(self.test(test)),
                Item::Pattern(pattern) => {
                    options.push(self.pattern(pattern));
                    modifiers = self.modifiers(pattern);
                }
            }
        }
        options.append(&mut modifiers);
        let mut once = vec![self.name(&table.name), self.protocol(table.protocol)];
        if let Some(flow) = table.flow {
            let value = self.word(word(&FLOWS, flow));
            once.push(self.option("flow", &value));
        }
        for (place, option) in once.into_iter().enumerate() {
            let anywhere = self.random.chance(self.mixed);
            let at = if anywhere { self.random.index(options.len() + 1) } else { place };
            options.insert(at.min(options.len()), option);
        }
        options
    }

    pub fn option(&mut self, name: &str, value: &str) -> String {
        let value = if value.is_empty() { String::new() } else { self.gap(1) + value };
        format!("--{}{}{};", self.word(name), value, self.gap(0))
    }

    fn gap(&mut self, least: usize) -> String {
        let more = if self.random.chance(self.spaces) { self.random.between(1, 3) } else { 0 };
        " ".repeat(least + more as usize)
    }

    fn word(&mut self, word: &str) -> String {
        let capitals = self.capitals;
        let mut letter =
            |c: char| if self.random.chance(capitals) { c.to_ascii_uppercase() } else { c };
        word.chars().map(&mut letter).collect()
    }

    fn number(&mut self, number: u64) -> String {
        let zeros = if self.random.chance(self.zeros) { self.random.between(1, 4) } else { 0 };
        "0".repeat(zeros as usize) + &number.to_string()
    }

    fn number_or_hex(&mut self, number: u64) -> String {
        if !self.random.chance(self.hex.max(20)) {
            return self.number(number);
        }
        let zeros = if self.random.chance(self.zeros) { "00" } else { "" };
        let digits = self.either_case(&format!("{number:x}"));
        format!("{}{zeros}{digits}", self.random.pick(&["0x", "0X"]))
    }

    fn either_case(&mut self, digits: &str) -> String {
        if self.random.chance(50) {
            digits.to_ascii_uppercase()
        } else {
            digits.to_string()
        }
    }

    pub fn name(&mut self, name: &[u8]) -> String {
        let value = format!("\"{}\"", String::from_utf8_lossy(name));
        self.option("name", &value)
    }

    pub fn protocol(&mut self, protocol: u64) -> String {
        let named = PROTOCOLS.iter().find(|(_, number)| *number == protocol);
        let value = match named {
            Some((name, _)) if self.random.chance(50) => self.word(name),
            _ => self.number(protocol),
        };
        self.option("protocol", &value)
    }

    fn pattern(&mut self, pattern: &Pattern) -> String {
        let negation = if pattern.negated { "!" } else { "" };
        let value = format!("{negation}\"{}\"", self.bytes(&pattern.bytes));
        self.option("pattern", &value)
    }

    fn bytes(&mut self, bytes: &[u8]) -> String {
        let mut text = String::new();
        let mut in_block = false;
        for byte in bytes {
            let plain = matches!(byte, 0x20..=0x7E) && !b"\";\\|:".contains(byte);
            let as_hex = !plain || self.random.chance(self.hex);
            // Two blocks may be neighbours, too.
            if in_block && (!as_hex || self.random.chance(self.hex / 10)) {
                text += "|";
                in_block = false;
            }
            if as_hex && !in_block {
                text = text + "|" + &self.gap(0);
                in_block = true;
            }
            if as_hex {
                text = text + &self.either_case(&format!("{byte:02x}")) + &self.gap(0);
            } else {
                text.push(char::from(*byte));
            }
        }
        if in_block {
            text + "|"
        } else {
            text
        }
    }

    fn modifiers(&mut self, pattern: &Pattern) -> Vec<String> {
        let mut modifiers = Vec::new();
        if pattern.context != Field::Packet || self.random.chance(self.defaults) {
            let value = self.word(word(&CONTEXTS, pattern.context));
            modifiers.push(self.option("context", &value));
        }
        if pattern.no_case {
            modifiers.push(self.option("no_case", ""));
        }
        if let Some(distance) = pattern.distance {
            let minus = distance.amount < 0 || distance.amount == 0 && self.random.chance(10);
            let sign = if minus { "-" } else { "" };
            let number = self.number(distance.amount.unsigned_abs());
            let reference = self.reference(distance.reference, distance.reverse);
            let reverse = if distance.reverse { self.word(",reverse") } else { String::new() };
            modifiers.push(self.option("distance", &format!("{sign}{number}{reference}{reverse}")));
        }
        if let Some(within) = pattern.within {
            let number = self.number(within.amount.unsigned_abs());
            let reference = self.reference(within.reference, false);
            modifiers.push(self.option("within", &(number + &reference)));
        }
        self.random.shuffle(&mut modifiers);
        modifiers
    }

    fn reference(&mut self, reference: Reference, needed: bool) -> String {
        if reference == Reference::Match && !needed && !self.random.chance(self.defaults) {
            return String::new();
        }
        ",".to_string() + &self.word(word(&REFERENCES, reference))
    }

    fn test(&mut self, test: &Test) -> String {
        let (kind, value) = match test {
            Test::Address { side, negated, list } => {
                (OptionName::Address(*side), self.addresses(*negated, list))
            }
            Test::SameIp => (OptionName::SameIp, String::new()),
            Test::Equal { what, value } => (OptionName::Equal(*what), self.number(*value)),
            Test::Ttl { compare, value } => {
                let sign = if *compare == Compare::Equal { "" } else { word(&OPERATORS, *compare) };
                (OptionName::IpTtl, sign.to_string() + &self.number(*value))
            }
            Test::Header { value, .. }
                if *test == Test::ip_id(*value) && self.random.chance(self.ip_id) =>
            {
                (OptionName::IpId, self.number(*value))
            }
            Test::Header { field, mask, compare, value } => {
                let mut text = String::new();
                if *mask != field.limit() || self.random.chance(self.defaults / 3) {
                    text = format!("&{}{}{}", self.gap(0), self.number_or_hex(*mask), self.gap(0));
                }
                text = text + word(&OPERATORS, *compare) + &self.gap(0);
                (OptionName::Header(*field), text + &self.number_or_hex(*value))
            }
            Test::DataSize { compare, value, field } => {
                let shown = *compare != Compare::Equal || self.random.chance(self.defaults);
                let sign = if shown { word(&OPERATORS, *compare) } else { "" };
                let mut text = sign.to_string() + &self.number(*value);
                if *field != Field::Packet || self.random.chance(self.defaults) {
                    text = text + "," + &self.word(word(&SIZED_FIELDS, *field));
                }
                (OptionName::DataSize, text)
            }
            Test::DataAt { at, relative } => {
                let relative = if *relative { self.word(",relative") } else { String::new() };
                (OptionName::DataAt, self.number(*at) + &relative)
            }
            Test::ByteTest { count, compare, value, offset, relative, little } => {
                let count = self.number(*count);
                let operator = word(&BYTE_OPERATORS, *compare);
                let (value, offset) = (self.number_or_hex(*value), self.number(*offset));
                let relative = if *relative { self.word(",relative") } else { String::new() };
                let little = if *little { self.word(",little") } else { String::new() };
                let value = format!("{count},{operator},{value},{offset}{relative}{little}");
                (OptionName::ByteTest, value)
            }
        };
        self.option(word(&OPTIONS, kind), &value)
    }

    fn addresses(&mut self, negated: bool, list: &[Address]) -> String {
        let texts: Vec<String> = list.iter().map(|address| self.address(address)).collect();
        let joined = texts.join(",");
        let negation = if negated { "!" } else { "" };
        if list.len() > 1 || self.random.chance(self.defaults) {
            format!("{negation}[{joined}]")
        } else {
            format!("{negation}{joined}")
        }
    }

    fn address(&mut self, address: &Address) -> String {
        let numbers: Vec<String> =
            address.numbers.iter().map(|number| self.number(u64::from(*number))).collect();
        let mut text = numbers.join(".");
        if address.prefix != 32 || self.random.chance(self.defaults) {
            text = text + "/" + &self.number(address.prefix);
        }
        text
    }
}
