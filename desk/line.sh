#!/usr/bin/env bash
# line.sh FORM FILE LINE: where the reader has answered 20 LINE, says in a line or two what is wrong with that line of the file, the most telling first. FORM is what the file
# should be: console (a console input) or listing. It is advice, nothing of it is proved: which line is the first that is wrong is the reader's word.
# The bytes come as numbers, so that byte 0 and lines of any length are as good as others.
set -euo pipefail
export LC_ALL=C
od -An -v -tu1 -- "$2" | awk -v form="$1" -v at="$3" '
    # The bytes of the line that is looked at are b[1] to b[n], those of the key and behind it: what stands before line LINE is right, so the head can be read off.
    function take(byte) {
        if (++bytes <= 3) start[bytes] = byte
        if (line == at) { there = 1; if (byte == 10) ended = 1; else b[++n] = byte; if (byte == 0) zeros++ }
        else if (line < at && (line == head + 1 || line == head + 2) && byte >= 48 && byte <= 57) count[line - head] = count[line - head] (byte - 48)
        # where a console input lacks a line, its listing (r, as in rules=) begins too early
        if (fresh && !early && line < at && line <= head && byte == 114) early = line
        fresh = byte == 10
        if (byte == 10) line++
    }
    function say(text) {
        if (said++ < 2) print "line " at ": " text
    }
    function character(byte) {
        if (byte == 32) return "a space"
        if (byte == 9) return "a tab"
        if (byte > 32 && byte < 127) return "\"" sprintf("%c", byte) "\""
        return "byte " byte (byte == 0 && zeros * 3 > n ? " (is the file saved as UTF-16?)" : "")
    }
    function digit(byte) { return byte >= 48 && byte <= 57 }
    function blank(byte) { return byte == 32 || byte == 9 }
    # Bytes from i to j as they stand, the first twenty of them.
    function shown(i, j, text) {
        for (text = ""; i <= j && length(text) < 20; i++) text = text (b[i] >= 32 && b[i] < 127 ? sprintf("%c", b[i]) : "?")
        return "\"" text (i <= j ? ".." : "") "\""
    }
    function ordinal(i) { return i (i % 10 == 1 && i != 11 ? "st" : i % 10 == 2 && i != 12 ? "nd" : i % 10 == 3 && i != 13 ? "rd" : "th") }
    function some(i, what) { return i " " what (i == 1 ? "" : "s") }

    # Which line it is: its key, and how it must look.
    function want(l) {
        if (l == head - 2) { key = "mode="; shape = "mode=bench or mode=display" }
        else if (l == head - 1) { key = "budget="; most = "4294967295"; shape = "budget= and a decimal, 0 to 4294967295" }
        else if (l == head) { key = "message="; shape = "message= and lower-case hex pairs, maybe none" }
        else if (l == head + 1) { key = "rules="; least = 1; most = 64; shape = "rules= and a decimal, 1 to 64" }
        else if (l == head + 2) { key = "nodes="; least = 1; most = 1024; shape = "nodes= and a decimal, 1 to 1024" }
        else if (l == head + 3) { key = "literals="; shape = "literals= and lower-case hex pairs, maybe none, at most 4096" }
        else if (l <= head + 3 + rules) record("rule", 15, l - head - 4)
        else if (l <= head + 3 + rules + nodes) record("node", 10, l - head - 4 - rules)
    }
    function record(name, many, number) {
        key = name "="; most = 65535; numbers = many
        shape = key " and " many " decimals, 0 to 65535, with single spaces between"
        which = name " " number ", "
    }
    function counts() { return "the head says " some(rules, "rule") " and " some(nodes, "node") }

    # What is wrong with the decimal from i to j, or nothing.
    function wrong_decimal(i, j, k, value) {
        if (b[i] == 45) return shown(i, j) " has a minus sign" (numbers ? ": an Integer below 0 is two words, two" sprintf("%c", 39) "s complement" : "")
        for (k = i; k <= j; k++) {
            if (digit(b[k])) continue
            if (b[k] == 43 && k == i) return shown(i, j) " has a plus sign"
            if (numbers && b[k] == 44) return "a comma: single spaces stand between the numbers"
            return character(b[k]) " is no decimal digit"
        }
        if (b[i] == 48 && j > i) return shown(i, j) " has a leading zero"
        for (k = i; k <= j && k < i + 12; k++) value = value * 10 + b[k] - 48
        if (value >= least && value <= most + 0) return ""
        if (least) return shown(i, j) " stands there, " key " is " least " to " most
        return shown(i, j) " is over " most
    }
    function look_at_decimal(i) {
        if (i > n) say("no number stands after " key)
        else if (blank(b[i])) say(character(b[i]) " stands after " key)
        else if ((text = wrong_decimal(i, n)) != "") say(text)
    }
    # The numbers of a record: the first thing that is wrong, and how many there are.
    function look_at_numbers(i, j, many, found, unread) {
        if (i <= n && blank(b[i])) found = character(b[i]) " stands after " key
        for (; i <= n; i = j + 1) {
            for (j = i; j < n && !blank(b[j + 1]); j++) continue
            if (blank(b[i])) {
                if (found == "" && b[i] == 9) found = "a tab stands after the " ordinal(many) " number: single spaces stand between"
                if (found == "" && i < n && blank(b[i + 1])) found = (b[i + 1] == 9 ? "a space and a tab stand" : "two spaces stand") " after the " ordinal(many) " number"
                j = i
                continue
            }
            many++
            if ((text = wrong_decimal(i, j)) == "") continue
            unread = 1
            if (found == "") found = "the " ordinal(many) " number: " text
        }
        if (found != "") say(found)
        if (many != numbers && !unread) say(some(many + 0, "number") (many == 1 ? " stands" : " stand") " there, " numbers " were wanted")
    }
    function look_at_hex(from, i, upper, digits) {
        digits = n - from + 1
        for (i = from; i <= n; i++) {
            if (digit(b[i]) || b[i] >= 97 && b[i] <= 102) continue
            if (b[i] >= 65 && b[i] <= 70) { if (!upper) upper = i; continue }
            say(character(b[i]) ", the " ordinal(i - from + 1) " behind " key ", is no hex digit")
            if (!upper) return
            break
        }
        if (upper) say("upper-case hex (" character(b[upper]) ", the " ordinal(upper - from + 1) " behind " key "): hex is lower-case here")
        if (digits % 2) say("an odd number of hex digits, " digits ": two make a byte")
        if (key == "literals=" && digits > 8192) say(int(digits / 2) " literal bytes: at most 4096 can be")
    }
    # Another key than that of this line.
    function look_at_key(i, j, found) {
        for (j = 1; j < n && j < 20 && b[j] != 61; j++) continue
        found = ""
        for (i = 1; i <= j; i++) found = found (b[i] >= 32 && b[i] < 127 ? sprintf("%c", b[i]) : "?")
        if (form == "listing" && found == "mode=" && said) return
        if (tolower(found) == key) { say("the key is " key ", in lower case"); return }
        say(shown(1, n) " stands there; wanted here: " which shape)
        if (early) say("the listing begins in line " early " already: of mode=, budget= and message= before it one is missing")
        else if (form == "console" && key == "mode=" && found == "rules=") say("a listing alone: before it a console input has mode=, budget= and message=; ./check takes a listing")
        else if (form == "listing" && key == "rules=" && (found == "budget=" || found == "message=")) say("a listing begins with rules=, a console input with mode=")
        else if (numbers && found ~ /^(rule|node)=$/) say(counts() ": is that so?")
    }
    function has_key(i) {
        for (i = 1; i <= length(key); i++) if (i > n || sprintf("%c", b[i]) != substr(key, i, 1)) return 0
        return 1
    }

    function after_the_last() {
        text = "nothing may stand after line " (at - 1) ", the last: " counts()
        if (n == 0) say("it is empty, and " text)
        else say(text "; " (n == 1 ? character(b[1]) : shown(1, n)) " stands here")
    }
    function missing() {
        if (at == 1) say("the file is empty; wanted here: " shape)
        else say("the file ends before it" (numbers ? ", and " counts() : "") "; wanted here: " which shape)
    }
    # Whatever the line is: marks and blanks around it. What is told is taken off.
    function around(i, kept) {
        if (at == 1 && start[1] == 239 && start[2] == 187 && start[3] == 191) {
            say("the file begins with a byte order mark (UTF-8; bytes 239 187 191): save it without")
            for (i = 4; i <= n; i++) b[i - 3] = b[i]
            n -= 3
        }
        if (!ended) say("its line end is missing: every line ends with byte 10, the last one too")
        if (n && b[n] == 13) { say("it ends with a carriage return (byte 13): lines end with byte 10 alone, the Unix line end"); n-- }
        if (n && blank(b[n])) { say(character(b[n]) " stands at its end"); while (n && blank(b[n])) n-- }
        for (i = 1; i < n && blank(b[i]); i++) continue
        if (n && i > 1) {
            say(character(b[1]) " stands at its beginning")
            for (kept = 0; i <= n; i++) b[++kept] = b[i]
            n = kept
        }
    }
    function returns_inside(i) {
        for (i = 1; i < n; i++) if (b[i] == 13) return 1
        return 0
    }
    function inside(i) {
        if (n == 0) { say("it is empty; wanted here: " which shape); return }
        if (!has_key()) { look_at_key(); return }
        i = length(key) + 1
        if (key == "mode=") { if (shown(i, n) !~ /^"(bench|display)"$/) say(shown(i, n) " stands after mode=, bench or display was wanted") }
        else if (key == "message=" || key == "literals=") look_at_hex(i)
        else if (numbers) look_at_numbers(i)
        else look_at_decimal(i)
    }

    BEGIN { line = 1; fresh = 1; head = form == "console" ? 3 : 0 }
    { for (i = 1; i <= NF; i++) take($i) }
    END {
        rules = count[1] + 0; nodes = count[2] + 0
        want(at)
        if (at == 1 && (start[1] == 255 && start[2] == 254 || start[1] == 254 && start[2] == 255))
            say("the file begins with a byte order mark of UTF-16: save it as plain ASCII")
        else if (!there) missing()
        else if (key == "") after_the_last()
        else if (returns_inside()) say("carriage returns (byte 13) stand in it: every line ends with byte 10 alone")
        else { around(); inside() }
        if (!said) say("wanted here: " which shape)
    }'
