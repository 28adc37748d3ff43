// Tests the library on texts that libFuzzer makes: tests/bindings/fuzz builds this program, with the archive.
//
// The first three bytes of an input choose the options, the others are the text. This file's own reader reads the events from their JSON.
// It checks that they are balanced, and that their ranges end at character boundaries. The ranges have to be in order, and each inside the
// one around it, unless a wikilink with a pipe or a task marker cuts an element's range. Then the HTML of these events is written, which
// has to equal the library's. The text also grows in parts, with the HTML of the whole after each part. A fault ends the process with the
// text.
#include "pulldown_cmark.h"

#include <cstdio>
#include <cstdlib>
#include <cstring>
#include <map>
#include <string>
#include <vector>

namespace {

// The bits of all options. tests/documents/check compares them with the library's.
constexpr uint32_t ALL_OPTIONS = 0x3FFFE;

std::string text;
uint32_t options;

[[noreturn]] void stop(const std::string &why) {
    fprintf(stderr, "fuzz: %s, options %u, text of %zu bytes:\n%s\n", why.c_str(), options, text.size(), text.c_str());
    abort();
}

void want(bool is_so, const char *why) {
    if (!is_so)
        stop(why);
}

// A value of JSON. A number keeps its digits.
struct Value {
    enum Kind { NONE, BOOLEAN, NUMBER, STRING, ARRAY } kind = NONE;
    bool is_true = false;
    std::string said;
    std::vector<Value> items;
    size_t number() const { return strtoull(said.c_str(), nullptr, 10); }
    // The name at the start of an array, or a text alone.
    const std::string &name() const { return kind == ARRAY ? items.at(0).said : said; }
};

// Reads a line of the events.
class Reader {
public:
    explicit Reader(const std::string &line) : line(line) {}

    void take(const char *wanted) {
        size_t size = strlen(wanted);
        want(line.compare(at, size, wanted) == 0, "a line of the events is no JSON of the form that is promised");
        at += size;
    }

    Value value() {
        Value it;
        switch (line[at]) {
        case '"':
            it.kind = Value::STRING;
            it.said = string();
            break;
        case '[':
            it.kind = Value::ARRAY;
            take("[");
            while (line[at] != ']') {
                it.items.push_back(value());
                if (line[at] != ']')
                    take(",");
            }
            take("]");
            break;
        case 'n':
            take("null");
            break;
        case 't':
        case 'f':
            it.kind = Value::BOOLEAN;
            it.is_true = line[at] == 't';
            take(it.is_true ? "true" : "false");
            break;
        default:
            it.kind = Value::NUMBER;
            while (line[at] >= '0' && line[at] <= '9')
                it.said += line[at++];
            want(!it.said.empty(), "a line of the events has a value of no kind");
        }
        return it;
    }

    bool is_over() const { return at == line.size(); }

private:
    const std::string &line;
    size_t at = 0;

    unsigned hexadecimal() {
        unsigned code = (unsigned)strtoul(line.substr(at, 4).c_str(), nullptr, 16);
        at += 4;
        return code;
    }

    static void put(std::string &out, unsigned code) {
        if (code < 0x80) {
            out += (char)code;
        } else if (code < 0x800) {
            out += (char)(0xC0 | code >> 6);
            out += (char)(0x80 | (code & 63));
        } else {
            out += (char)(0xE0 | code >> 12);
            out += (char)(0x80 | (code >> 6 & 63));
            out += (char)(0x80 | (code & 63));
        }
    }

    std::string string() {
        static const std::map<char, char> escapes = {{'"', '"'}, {'\\', '\\'}, {'/', '/'}, {'b', '\b'}, {'f', '\f'}, {'n', '\n'}, {'r', '\r'}, {'t', '\t'}};
        std::string out;
        for (take("\""); line[at] != '"';) {
            want(at < line.size() && (unsigned char)line[at] >= 0x20, "a text of the events is not closed");
            if (line[at] != '\\') {
                out += line[at++];
                continue;
            }
            char kind = line[at + 1];
            at += 2;
            if (kind == 'u')
                put(out, hexadecimal());
            else
                out += escapes.at(kind);
        }
        take("\"");
        return out;
    }
};

struct Event {
    size_t start, end;
    Value said;
};

std::string escaped(const std::string &bytes, bool is_attribute) {
    std::string out;
    for (char byte : bytes) {
        switch (byte) {
        case '&': out += "&amp;"; break;
        case '<': out += "&lt;"; break;
        case '>': out += "&gt;"; break;
        case '"': out += is_attribute ? "&quot;" : "\""; break;
        case '\'': out += is_attribute ? "&#x27;" : "'"; break;
        default: out += byte;
        }
    }
    return out;
}

std::string href(const std::string &bytes) {
    std::string out;
    for (char byte : bytes) {
        char encoded[4];
        if (isalnum((unsigned char)byte) && (unsigned char)byte < 0x80)
            out += byte;
        else if (byte && strchr("!#$%()*+,-./:;=?@_~", byte))
            out += byte;
        else if (byte == '&')
            out += "&amp;";
        else if (byte == '\'')
            out += "&#x27;";
        else {
            snprintf(encoded, sizeof encoded, "%%%02X", (unsigned char)byte);
            out += encoded;
        }
    }
    return out;
}

std::string attribute(const std::string &name, const std::string &value) {
    return " " + name + "=\"" + escaped(value, true) + "\"";
}

std::string title_of(const Value &title) {
    return title.said.empty() ? "" : attribute("title", title.said);
}

// The elements whose start and end have no data, by their tags of HTML.
const std::map<std::string, const char *> SPANS = {{"Emphasis", "em"}, {"Strong", "strong"}, {"Strikethrough", "del"}, {"Superscript", "sup"}, {"Subscript", "sub"}, {"Highlight", "mark"}};
const std::map<std::string, const char *> BLOCKS = {{"Paragraph", "<p>"}, {"Item", "<li>"}, {"DefinitionList", "<dl>\n"}, {"DefinitionListTitle", "<dt>"}, {"DefinitionListDefinition", "<dd>"}};
const std::map<std::string, const char *> ENDS = {{"Paragraph", "</p>\n"}, {"BlockQuote", "</blockquote>\n"}, {"CodeBlock", "</code></pre>\n"}, {"Item", "</li>\n"}, {"FootnoteDefinition", "</div>\n"},
                                                  {"DefinitionList", "</dl>\n"}, {"DefinitionListTitle", "</dt>\n"}, {"DefinitionListDefinition", "</dd>\n"}, {"Table", "</tbody></table>\n"},
                                                  {"TableHead", "</tr></thead><tbody>\n"}, {"TableRow", "</tr>\n"}, {"Link", "</a>"}};

// Writes the HTML of events. The last byte written tells whether a block begins on a new line.
class Writer {
public:
    std::string html;

    void event(const Event &it) {
        const std::string &name = it.said.name();
        if (depth)
            inside(name, it);
        else if (name == "Start")
            start(it.said.items.at(1));
        else if (name == "End")
            end(it.said.items.at(1));
        else
            leaf(name, it);
    }

private:
    bool is_fresh = true, in_metadata = false, in_head = false;
    size_t depth = 0, column = 0;
    Value image;
    std::vector<std::string> alignments, names;

    void put(const std::string &piece) {
        html += piece;
        is_fresh = false;
    }

    void line(const std::string &piece) {
        if (!is_fresh)
            html += '\n';
        html += piece;
        is_fresh = piece.back() == '\n';
    }

    std::string number_of(const std::string &name) {
        size_t at = 0;
        while (at < names.size() && names[at] != name)
            at++;
        if (at == names.size())
            names.push_back(name);
        return std::to_string(at + 1);
    }

    void heading(const Value &tag) {
        std::string piece = "<h" + tag.items.at(1).said;
        if (tag.items.at(2).kind == Value::STRING)
            piece += attribute("id", tag.items.at(2).said);
        std::string classes;
        for (const Value &name : tag.items.at(3).items)
            classes += (classes.empty() && &name == &tag.items.at(3).items.front() ? "" : " ") + name.said;
        if (!tag.items.at(3).items.empty())
            piece += attribute("class", classes);
        for (const Value &other : tag.items.at(4).items)
            piece += attribute(escaped(other.items.at(0).said, true), other.items.at(1).said);
        line(piece + ">");
    }

    void table_start(const std::string &name, const Value &tag) {
        if (name == "Table") {
            alignments.clear();
            for (const Value &alignment : tag.items.at(1).items)
                alignments.push_back(alignment.said);
            put("<table>");
        } else if (name == "TableCell") {
            std::string style = column < alignments.size() && alignments[column] != "None" ? alignments[column] : "";
            if (!style.empty())
                style = " style=\"text-align: " + std::string(1, (char)tolower(style[0])) + style.substr(1) + "\"";
            put((in_head ? "<th" : "<td") + style + ">");
        } else {
            column = 0;
            in_head = in_head || name == "TableHead";
            put(name == "TableHead" ? "<thead><tr>" : "<tr>");
        }
    }

    void start(const Value &tag) {
        const std::string &name = tag.name();
        if (BLOCKS.count(name)) {
            line(BLOCKS.at(name));
        } else if (SPANS.count(name)) {
            put(std::string("<") + SPANS.at(name) + ">");
        } else if (name == "Heading") {
            heading(tag);
        } else if (name == "BlockQuote") {
            std::string kind = tag.items.at(1).said;
            for (char &letter : kind)
                letter = (char)tolower(letter);
            line(kind.empty() ? "<blockquote>\n" : "<blockquote class=\"markdown-alert-" + kind + "\">\n");
        } else if (name == "CodeBlock") {
            const Value &kind = tag.items.at(1);
            std::string word = kind.name() == "Fenced" ? kind.items.at(1).said : "";
            word = word.substr(0, word.find(' '));
            line(word.empty() ? "<pre><code>" : "<pre><code" + attribute("class", "language-" + word) + ">");
        } else if (name == "List") {
            const Value &first = tag.items.at(1);
            line(first.kind == Value::NONE ? "<ul>\n" : first.number() == 1 ? "<ol>\n" : "<ol start=\"" + first.said + "\">\n");
        } else if (name == "FootnoteDefinition") {
            const std::string &label = tag.items.at(1).said;
            line("<div class=\"footnote-definition\"" + attribute("id", label) + "><sup class=\"footnote-definition-label\">" + number_of(label) + "</sup>");
        } else if (name.compare(0, 5, "Table") == 0) {
            table_start(name, tag);
        } else if (name == "Link") {
            put("<a href=\"" + std::string(tag.items.at(1).name() == "Email" ? "mailto:" : "") + href(tag.items.at(2).said) + "\"" + title_of(tag.items.at(3)) + ">");
        } else if (name == "Image") {
            put("<img src=\"" + href(tag.items.at(2).said) + "\" alt=\"");
            image = tag.items.at(3);
            depth = 1;
        } else if (name == "MetadataBlock") {
            in_metadata = true;
        } else {
            want(name == "HtmlBlock", "an element has a name that none has");
        }
    }

    void end(const Value &tag) {
        const std::string &name = tag.name();
        if (ENDS.count(name)) {
            html += ENDS.at(name);
            is_fresh = html.back() == '\n';
        } else if (SPANS.count(name)) {
            put(std::string("</") + SPANS.at(name) + ">");
        } else if (name == "Heading") {
            html += "</h" + tag.items.at(1).said + ">\n";
            is_fresh = true;
        } else if (name == "List") {
            html += tag.items.at(1).is_true ? "</ol>\n" : "</ul>\n";
            is_fresh = true;
        } else if (name == "TableCell") {
            put(in_head ? "</th>" : "</td>");
            column++;
        } else if (name == "MetadataBlock") {
            in_metadata = false;
        }
        in_head = in_head && name != "TableHead";
    }

    void leaf(const std::string &name, const Event &it) {
        const std::string said = it.said.kind == Value::ARRAY && it.said.items.size() > 1 ? it.said.items.at(1).said : "";
        if (name == "Text") {
            if (in_metadata)
                return;
            html += escaped(said, false);
            is_fresh = !said.empty() && said.back() == '\n';
        } else if (name == "Html" || name == "InlineHtml") {
            html += said;
            is_fresh = said.empty() ? is_fresh : said.back() == '\n';
        } else if (name == "Code") {
            put("<code>" + escaped(said, false) + "</code>");
        } else if (name == "InlineMath" || name == "DisplayMath") {
            put(std::string("<span class=\"math math-") + (name == "InlineMath" ? "inline" : "display") + "\">" + escaped(said, true) + "</span>");
        } else if (name == "FootnoteReference") {
            put("<sup class=\"footnote-reference\"><a href=\"#" + escaped(said, true) + "\">" + number_of(said) + "</a></sup>");
        } else if (name == "Rule") {
            line("<hr />\n");
        } else {
            html += name == "SoftBreak" ? "\n" : name == "HardBreak" ? "<br />\n" : it.said.items.at(1).is_true ? "<input disabled=\"\" type=\"checkbox\" checked=\"\"/>\n" : "<input disabled=\"\" type=\"checkbox\"/>\n";
            is_fresh = true;
        }
    }

    // The content of an image: only its text.
    void inside(const std::string &name, const Event &it) {
        const std::string said = it.said.kind == Value::ARRAY && it.said.items.size() > 1 ? it.said.items.at(1).said : "";
        if (name == "Start")
            depth++;
        else if (name == "End" && --depth == 0)
            html += "\"" + title_of(image) + " />";
        else if (name == "Text" || name == "Code" || name == "InlineHtml")
            html += escaped(said, true);
        else if (name == "InlineMath")
            html += "$" + escaped(said, true) + "$";
        else if (name == "DisplayMath")
            html += "$$" + escaped(said, true) + "$$";
        else if (name == "FootnoteReference")
            html += "[" + number_of(said) + "]";
        else if (name == "SoftBreak" || name == "HardBreak" || name == "Rule")
            html += " ";
        else if (name == "TaskListMarker")
            html += it.said.items.at(1).is_true ? "[x]" : "[ ]";
        is_fresh = false;
    }
};

bool cuts(size_t at) {
    return at < text.size() && ((unsigned char)text[at] & 0xC0) == 0x80;
}

// An open element: its name, its range, and the offset from which its next part may begin.
struct Open {
    std::string name;
    size_t start, end, from;
};

void judge(const Event &it, bool is_uncut, std::vector<Open> &opened) {
    want(it.start <= it.end && it.end <= text.size(), "a range does not lie in the text");
    want(!cuts(it.start) && !cuts(it.end), "a range cuts a character");
    const std::string &name = it.said.name();
    if (name == "End") {
        Open &last = opened.back();
        want(opened.size() > 1 && last.name == it.said.items.at(1).name() && last.start == it.start && last.end == it.end, "an end is of no element that began last");
        opened.pop_back();
        return;
    }
    Open &around = opened.back();
    want(!is_uncut || (around.from <= it.start && it.end <= around.end), "a range does not begin after the one before it, or in the one around it");
    around.from = it.end;
    if (name == "Start")
        opened.push_back({it.said.items.at(1).name(), it.start, it.end, it.start});
}

std::string html_of_events(const std::string &lines) {
    bool has_display = (options & PCM_WIKILINKS) && text.find('|') != std::string::npos;
    bool is_uncut = !has_display && lines.find("[\"TaskListMarker\"") == std::string::npos;
    std::vector<Open> opened = {{"", 0, text.size(), 0}};
    Writer writer;
    for (size_t from = 0; from < lines.size();) {
        size_t to = lines.find('\n', from);
        want(to != std::string::npos, "the last line of the events is not ended");
        std::string line = lines.substr(from, to - from);
        Reader reader(line);
        Event it;
        reader.take("{\"range\":[");
        it.start = reader.value().number();
        reader.take(",");
        it.end = reader.value().number();
        reader.take("],\"event\":");
        it.said = reader.value();
        reader.take("}");
        want(reader.is_over(), "something follows an event");
        judge(it, is_uncut, opened);
        writer.event(it);
        from = to + 1;
    }
    want(opened.size() == 1, "an element is not ended");
    return writer.html;
}

uint32_t answer(pcm_call call, std::string &out) {
    char *given;
    size_t size;
    uint32_t status = pcm_answer(call, text.data(), text.size(), options, &given, &size);
    want(status == PCM_DONE || status == PCM_NOT_UTF8, "a call has no memory");
    out.assign(status == PCM_DONE ? given : "", size);
    pcm_free(given);
    return status;
}

constexpr size_t LIMIT = 100000;

// The HTML that a call writes. The call gets a room, its length, and the place of the size.
template <typename Call> std::string written(Call call) {
    std::string room(4096, 0);
    size_t size;
    uint32_t status = call((uint8_t *)&room[0], room.size(), &size);
    if (status == PCM_TOO_LONG) {
        room.resize(size);
        status = call((uint8_t *)&room[0], room.size(), &size);
    }
    want(status == PCM_DONE, "a text that grows has no HTML");
    room.resize(size);
    return room;
}

// A text that grows: its cut, and its settled HTML.
struct Grown {
    size_t cut = 0;
    std::string settled;

    // Reads the text up to an offset, and compares the HTML with that of pcm_html_within.
    void read_to(size_t end) {
        const uint8_t *bytes = (const uint8_t *)text.data();
        size_t before = cut, more = 0;
        std::string whole = written([&](uint8_t *room, size_t len, size_t *size) { return pcm_html_within(bytes, end, options, LIMIT, room, len, size); });
        std::string html = written([&](uint8_t *room, size_t len, size_t *size) { return pcm_stream(bytes, end, options, LIMIT, &cut, &more, room, len, size); });
        want(more <= html.size() && cut <= end && (cut >= before || !cut) && (cut || !more), "a cut or a settled size is out of its bounds");
        if (cut == 0)
            settled.clear();
        want(settled + html == whole, "the HTML of a text that grows is not that of the whole text");
        settled.append(html, 0, more);
    }
};

// The text in a few parts, whose sizes depend on its bytes.
void grow() {
    Grown grown;
    for (size_t end = 0; end < text.size();) {
        end += 1 + (unsigned char)text[end] % (text.size() / 4 + 2);
        end = end < text.size() ? end : text.size();
        while (cuts(end))
            end++;
        grown.read_to(end);
    }
}

} // namespace

extern "C" int LLVMFuzzerTestOneInput(const uint8_t *data, size_t size) {
    if (size < 3)
        return 0;
    options = (uint32_t)(data[0] | data[1] << 8 | data[2] << 16) & ALL_OPTIONS;
    text.assign((const char *)data + 3, size - 3);
    std::string html, lines;
    uint32_t status = answer(pcm_html, html);
    want(answer(pcm_events_json, lines) == status, "the two calls end otherwise");
    if (status == PCM_DONE) {
        want(html_of_events(lines) == html, "the HTML is not that of the events");
        grow();
    }
    return 0;
}
