// What the shell is measured against: the same three commands, read, split, parsed, answered and printed by hand.
// It keeps one list of objects a layer, as the store in memory does, and checks as much of a line as the shell does.
#include <charconv>
#include <cstdint>
#include <cstdio>
#include <cstring>
#include <map>
#include <string>
#include <string_view>
#include <vector>

using Box = std::vector<int32_t>; // all lows, and then all highs

struct Layer {
    size_t dims;
    std::vector<std::pair<uint64_t, Box>> objects;
};

static std::string out;

static void flush() {
    fwrite(out.data(), 1, out.size(), stdout);
    out.clear();
}

template <class T> static void number(T value) {
    char digits[24];
    auto end = std::to_chars(digits, digits + sizeof digits, value).ptr;
    out.append(digits, end);
}

static void fail(const char *text) {
    out += "fail ";
    out += text;
    out += '\n';
}

template <class T> static bool parse(std::string_view word, T &value) {
    auto [end, error] = std::from_chars(word.data(), word.data() + word.size(), value);
    return error == std::errc() && end == word.data() + word.size();
}

static bool good_name(std::string_view name) {
    if (name.empty() || name.size() > 24 || name[0] < 'a' || name[0] > 'z') return false;
    for (char c : name)
        if (!((c >= 'a' && c <= 'z') || (c >= '0' && c <= '9') || c == '_')) return false;
    return true;
}

static bool meet(const Box &a, const Box &b, size_t dims) {
    for (size_t axis = 0; axis < dims; axis++)
        if (a[axis] > b[axis + dims] || b[axis] > a[axis + dims]) return false;
    return true;
}

static std::map<std::string, Layer, std::less<>> layers;

static void answer(std::string_view line) {
    static std::vector<std::string_view> words;
    words.clear();
    for (size_t at = 0; at < line.size();) {
        while (at < line.size() && (line[at] == ' ' || line[at] == '\t' || line[at] == '\r')) at++;
        size_t from = at;
        while (at < line.size() && line[at] != ' ' && line[at] != '\t' && line[at] != '\r') at++;
        if (from < at) words.push_back(line.substr(from, at - from));
    }
    if (words.empty() || words[0][0] == '#') return;
    static Box box;
    auto read_box = [&](size_t from) {
        box.clear();
        if (words.size() - from != 4 && words.size() - from != 6) return false;
        for (size_t k = from; k < words.size(); k++) {
            int32_t coordinate;
            if (!parse(words[k], coordinate)) return false;
            box.push_back(coordinate);
        }
        return true;
    };
    if (words[0] == "create") {
        uint64_t dims, fanout;
        if (words.size() != 4 || !parse(words[2], dims) || !parse(words[3], fanout)) return fail("24 BadLine");
        if (!good_name(words[1])) return fail("1 BadName");
        if (dims != 2 && dims != 3) return fail("4 BadDims");
        if (fanout < 4 || fanout > 100) return fail("5 BadFanout");
        if (layers.find(words[1]) != layers.end()) return fail("2 LayerExists");
        if (layers.size() >= 60) return fail("6 TooManyLayers");
        layers[std::string(words[1])] = Layer{size_t(dims), {}};
        out += "ok\n";
    } else if (words[0] == "insert" || words[0] == "window") {
        bool insert = words[0] == "insert";
        uint64_t id = 0;
        if (words.size() < 3 || (insert && !parse(words[2], id)) || !read_box(insert ? 3 : 2)) return fail("24 BadLine");
        if (!good_name(words[1])) return fail("1 BadName");
        auto found = layers.find(words[1]);
        if (found == layers.end()) return fail("3 NoLayer");
        Layer &layer = found->second;
        if (box.size() != 2 * layer.dims) return fail("8 WrongDims");
        for (size_t axis = 0; axis < layer.dims; axis++)
            if (box[axis] > box[axis + layer.dims]) return fail("7 BadBox");
        if (insert) {
            auto place = layer.objects.begin();
            while (place != layer.objects.end() && place->first < id) place++;
            if (place != layer.objects.end() && place->first == id) return fail("9 Duplicate");
            layer.objects.insert(place, {id, box});
            out += "ok\n";
            return;
        }
        std::vector<const std::pair<uint64_t, Box> *> rows;
        for (auto &object : layer.objects)
            if (meet(object.second, box, layer.dims)) rows.push_back(&object);
        out += "ok ";
        number(rows.size());
        out += '\n';
        for (auto row : rows) {
            number(row->first);
            for (int32_t coordinate : row->second) {
                out += ' ';
                number(coordinate);
            }
            out += '\n';
        }
    } else {
        fail("24 BadLine");
    }
}

int main() {
    std::vector<char> buffer(65536);
    size_t start = 0, end = 0;
    for (;;) {
        while (auto newline = static_cast<char *>(memchr(&buffer[0] + start, '\n', end - start))) {
            size_t at = newline - &buffer[0];
            answer({&buffer[start], at - start});
            start = at + 1;
        }
        if (out.size() > 8192) flush();
        std::copy(buffer.begin() + start, buffer.begin() + end, buffer.begin());
        end -= start;
        start = 0;
        size_t count = fread(&buffer[end], 1, buffer.size() - end, stdin);
        if (count == 0) break;
        end += count;
    }
    if (end > 0) answer({&buffer[0], end});
    flush();
}
