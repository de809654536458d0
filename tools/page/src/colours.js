// A line of a source with its parts in colours, as HTML.
"use strict";

const COMMENT_LINE = /^\s*[*;]/;
const SOURCE_LINE = /^(\S*)(\s*)([^\s;]*)((?:"[^"]*"|'[^']*'|[^;])*)(;.*)?$/;
const STRING_OR_NUMBER = /("[^"]*"|'[^']*')|\b([0-9][0-9A-Fa-f]*[hHbBqQ]?)\b/g;
const coloured = (kind, text) => `<span class="${kind}">${text}</span>`;

function painted(line) {
    if (COMMENT_LINE.test(line)) return coloured("comment", escaped(line));
    const [, label, blanks, mnemonic, operands, comment] = SOURCE_LINE.exec(line) || [];
    if (label === undefined) return escaped(line);
    const marked = escaped(operands).replace(STRING_OR_NUMBER, (text, string) => coloured(string ? "string" : "number", text));
    return escaped(label) + blanks + coloured(mnemonic.startsWith(".") ? "directive" : "mnemonic", escaped(mnemonic))
        + marked + (comment ? coloured("comment", escaped(comment)) : "");
}
