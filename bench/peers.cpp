// The command language (docs/COMMANDS.md) over another index: SQLite's R*Tree (-DSQLITE), libspatialindex
// (-DSPATIALINDEX) or Boost's tree. It reads lines that the store would answer `ok` to; where one is refused, it ends.
// usage: peer PAGES [FILE [JOURNAL]], the commands on standard input. Without FILE the index is in memory, and Boost's always
// is. Of SQLite's JOURNAL is the mode of its journal (DELETE, PERSIST, WAL), none where it is left out. Where it is said, a
// reopening is a commit that is synced in full, and the database stays open; but for DELETE, the default, it stays locked.
#include <algorithm>
#include <charconv>
#include <cmath>
#include <cstdint>
#include <cstdio>
#include <cstdlib>
#include <cstring>
#include <iterator>
#include <map>
#include <memory>
#include <string>
#include <string_view>
#include <unordered_map>
#include <utility>
#include <vector>

struct Row {
    uint64_t id;
    int32_t at[6]; // all lows, and then all highs
};

using Rows = std::vector<Row>;
using Pairs = std::vector<std::pair<uint64_t, uint64_t>>; // (identifier, identifier), or (squared distance, identifier)

enum Ask { WINDOW, INSIDE, AROUND };

static const char *file;  // null in memory
static const char *pages; // how many are cached
static const char *journal; // null where a stop may lose the file

[[noreturn]] static void fail(const char *why) {
    fprintf(stderr, "peer: %s\n", why);
    exit(1);
}

static uint64_t distance(const Row &row, const int32_t *point, int axes) {
    uint64_t sum = 0;
    for (int k = 0; k < axes; k++) {
        int64_t gap = std::max({int64_t(row.at[k]) - point[k], int64_t(point[k]) - row.at[axes + k], int64_t(0)});
        sum += uint64_t(gap * gap);
    }
    return sum;
}

// The squared distance of two boxes, that of their nearest points.
static unsigned __int128 distance(const Row &row, const Row &other, int axes) {
    unsigned __int128 sum = 0;
    for (int k = 0; k < axes; k++) {
        int64_t gap = std::max({int64_t(row.at[k]) - other.at[axes + k], int64_t(other.at[k]) - row.at[axes + k], int64_t(0)});
        sum += (unsigned __int128)(gap) * gap;
    }
    return sum;
}

// The box with its sides moved out by so much, but not past the ends of 32-bit numbers.
static void widen(const Row &row, int64_t by, int axes, int32_t *box) {
    for (int k = 0; k < axes; k++) {
        box[k] = int32_t(std::max(int64_t(row.at[k]) - by, int64_t(INT32_MIN)));
        box[axes + k] = int32_t(std::min(int64_t(row.at[axes + k]) + by, int64_t(INT32_MAX)));
    }
}

struct Layer {
    const int axes;
    size_t size = 0;

    explicit Layer(int axes) : axes(axes) {}
    virtual ~Layer() = default;
    virtual void insert(const Row &row) = 0;
    virtual void remove(uint64_t id) = 0;
    virtual void search(Ask ask, const int32_t *box, Rows &rows) = 0;
    // At least the count nearest with all that are as far as the last of them, in any order.
    virtual void nearest(size_t count, const int32_t *point, Pairs &found) = 0;

    virtual void move(const Row &row) {
        remove(row.id);
        insert(row);
    }

    virtual void load(const Rows &rows) {
        for (const Row &row : rows) insert(row);
    }

    // A window of one tree for each object of the other, in the order of its leaves; within a squared distance a window
    // of its box widened by the root, and then the distance of each.
    virtual void join(Layer &other, uint64_t within, Pairs &found) {
        Rows all, met;
        const int32_t least = INT32_MIN, most = INT32_MAX;
        const int32_t space[6] = {least, least, axes == 2 ? most : least, most, most, most};
        const int64_t root = int64_t(std::sqrt((long double)within));
        int32_t box[6];
        search(WINDOW, space, all);
        for (const Row &row : all) {
            met.clear();
            widen(row, root, axes, box);
            other.search(WINDOW, box, met);
            for (const Row &each : met)
                if (within == 0 || distance(row, each, axes) <= within) found.emplace_back(row.id, each.id);
        }
    }
};

#if defined SQLITE
#include <sqlite3.h>

static sqlite3 *db;

static void must(int code) {
    if (code != SQLITE_OK && code != SQLITE_DONE && code != SQLITE_ROW) fail(sqlite3_errmsg(db));
}

static void run(const std::string &text) { must(sqlite3_exec(db, text.c_str(), nullptr, nullptr, nullptr)); }

// The squared distance from the point that is asked for, by which SQLite visits nodes and objects, least first.
static int score(sqlite3_rtree_query_info *query) {
    double sum = 0;
    for (int k = 0; k < query->nParam; k++) {
        double at = query->aParam[k];
        double gap = std::max({query->aCoord[2 * k] - at, at - query->aCoord[2 * k + 1], 0.0});
        sum += gap * gap;
    }
    query->rScore = sum;
    query->eWithin = PARTLY_WITHIN;
    return SQLITE_OK;
}

static void open_database() {
    must(sqlite3_open(file ? file : ":memory:", &db));
    run("PRAGMA page_size = 4096");
    run(std::string("PRAGMA cache_size = ") + pages);
    if (!journal || strcmp(journal, "DELETE") != 0) run("PRAGMA locking_mode = EXCLUSIVE");
    run(std::string("PRAGMA journal_mode = ") + (journal ? journal : "OFF"));
    run("PRAGMA synchronous = FULL");
    must(sqlite3_rtree_query_callback(db, "nearest", score, nullptr, nullptr));
    run("BEGIN");
}

// A row's columns are its identifier, and the low and the high of each axis.
struct Table : Layer {
    const std::string name;
    sqlite3_stmt *add, *take, *change, *near, *asks[3];

    Table(const std::string &name, int axes) : Layer(axes), name(name) {
        std::string columns;
        for (int k = 0; k < axes; k++) columns += each(k, ", l#, h#");
        run("CREATE VIRTUAL TABLE IF NOT EXISTS " + name + " USING rtree_i32(id" + columns + ")");
        prepare();
    }

    // A text in which # stands for an axis, L and H for the places of its low and high among those of a box.
    std::string each(int axis, std::string_view form) const {
        std::string text;
        for (char letter : form) {
            if (letter == '#') text += std::to_string(axis);
            else if (letter == 'L') text += '?' + std::to_string(axis + 2);
            else if (letter == 'H') text += '?' + std::to_string(axes + axis + 2);
            else text += letter;
        }
        return text;
    }

    // One text for each axis, with a word between them.
    std::string all(std::string_view form, const char *between) const {
        std::string text = each(0, form);
        for (int k = 1; k < axes; k++) text += between + each(k, form);
        return text;
    }

    sqlite3_stmt *statement(const std::string &text) const {
        sqlite3_stmt *made;
        must(sqlite3_prepare_v2(db, text.c_str(), -1, &made, nullptr));
        return made;
    }

    void prepare() {
        const std::string select = "SELECT id, " + all("l#", ", ") + ", " + all("h#", ", ") + " FROM " + name + " WHERE ";
        add = statement("INSERT INTO " + name + " VALUES (?1, " + all("L, H", ", ") + ")");
        take = statement("DELETE FROM " + name + " WHERE id = ?1");
        change = statement("UPDATE " + name + " SET " + all("l# = L, h# = H", ", ") + " WHERE id = ?1");
        near = statement(select + "id MATCH nearest(" + all("L", ", ") + ")");
        asks[WINDOW] = statement(select + all("h# >= L AND l# <= H", " AND "));
        asks[INSIDE] = statement(select + all("l# >= L AND h# <= H", " AND "));
        asks[AROUND] = statement(select + all("l# <= L AND h# >= H", " AND "));
    }

    void finalize() {
        for (sqlite3_stmt *each : {add, take, change, near, asks[0], asks[1], asks[2]}) sqlite3_finalize(each);
    }

    void execute(sqlite3_stmt *statement, const Row &row) {
        bind(statement, row.at, 2 * axes);
        sqlite3_bind_int64(statement, 1, sqlite3_int64(row.id));
        must(sqlite3_step(statement));
        sqlite3_reset(statement);
    }

    void bind(sqlite3_stmt *statement, const int32_t *at, int count) {
        for (int k = 0; k < count; k++) sqlite3_bind_int(statement, k + 2, at[k]);
    }

    Row row_of(sqlite3_stmt *statement) const {
        Row row;
        row.id = uint64_t(sqlite3_column_int64(statement, 0));
        for (int k = 0; k < 2 * axes; k++) row.at[k] = sqlite3_column_int(statement, k + 1);
        return row;
    }

    void insert(const Row &row) override { execute(add, row); }
    void move(const Row &row) override { execute(change, row); }

    void remove(uint64_t id) override {
        sqlite3_bind_int64(take, 1, sqlite3_int64(id));
        must(sqlite3_step(take));
        sqlite3_reset(take);
    }

    void search(Ask ask, const int32_t *box, Rows &rows) override {
        bind(asks[ask], box, 2 * axes);
        while (sqlite3_step(asks[ask]) == SQLITE_ROW) rows.push_back(row_of(asks[ask]));
        must(sqlite3_reset(asks[ask]));
    }

    void nearest(size_t count, const int32_t *point, Pairs &found) override {
        bind(near, point, axes);
        while (sqlite3_step(near) == SQLITE_ROW) {
            Row row = row_of(near);
            uint64_t far = distance(row, point, axes);
            if (found.size() >= count && far > found.back().first) break;
            found.emplace_back(far, row.id);
        }
        must(sqlite3_reset(near));
    }

    void join(Layer &other, uint64_t within, Pairs &found) override {
        if (within > 0) return Layer::join(other, within, found);
        sqlite3_stmt *both = statement("SELECT p.id, q.id FROM " + name + " p CROSS JOIN " + static_cast<Table &>(other).name +
            " q WHERE " + all("q.h# >= p.l# AND q.l# <= p.h#", " AND "));
        while (sqlite3_step(both) == SQLITE_ROW)
            found.emplace_back(sqlite3_column_int64(both, 0), sqlite3_column_int64(both, 1));
        must(sqlite3_finalize(both));
    }
};

using Layers = std::map<std::string, std::unique_ptr<Layer>>;

static std::unique_ptr<Layer> make_layer(const std::string &name, int axes) { return std::make_unique<Table>(name, axes); }

static void reopen(Layers &layers) {
    run("COMMIT");
    if (!file || journal) return run("BEGIN");
    for (auto &[name, layer] : layers) static_cast<Table &>(*layer).finalize();
    must(sqlite3_close(db));
    open_database();
    for (auto &[name, layer] : layers) static_cast<Table &>(*layer).prepare();
}

#elif defined SPATIALINDEX
#include <spatialindex/SpatialIndex.h>

namespace si = SpatialIndex;

static void open_database() {}

static si::Region region(const int32_t *at, int axes) {
    double low[3], high[3];
    std::copy(at, at + axes, low);
    std::copy(at + axes, at + 2 * axes, high);
    return si::Region(low, high, uint32_t(axes));
}

// Takes each object that a query finds to a function.
template <class Take> struct Visitor : si::IVisitor {
    Take take;

    explicit Visitor(Take take) : take(take) {}
    void visitNode(const si::INode &) override {}
    void visitData(std::vector<const si::IData *> &) override {}

    void visitData(const si::IData &data) override {
        const si::Region &found = static_cast<const si::RTree::Data &>(data).m_region;
        Row row;
        row.id = uint64_t(data.getIdentifier());
        for (uint32_t k = 0; k < found.m_dimension; k++) {
            row.at[k] = int32_t(found.m_pLow[k]);
            row.at[found.m_dimension + k] = int32_t(found.m_pHigh[k]);
        }
        take(row);
    }
};

struct Stream : si::IDataStream {
    const Rows &rows;
    const int axes;
    size_t at = 0;

    Stream(const Rows &rows, int axes) : rows(rows), axes(axes) {}
    bool hasNext() override { return at < rows.size(); }
    uint32_t size() override { return uint32_t(rows.size()); }
    void rewind() override { at = 0; }

    si::IData *getNext() override {
        const Row &row = rows[at++];
        si::Region box = region(row.at, axes);
        return new si::RTree::Data(0, nullptr, box, si::id_type(row.id));
    }
};

struct Tree : Layer {
    static constexpr uint32_t PAGE = 1024; // bytes, with which it is faster than with 4096

    std::string path;
    std::unordered_map<uint64_t, Row> boxes;
    std::unique_ptr<si::IStorageManager> storage, buffer;
    std::unique_ptr<si::ISpatialIndex> tree;
    si::id_type index;

    Tree(const std::string &name, int axes) : Layer(axes) {
        if (file) path = std::string(file) + "." + name;
        storage.reset(file ? si::StorageManager::createNewDiskStorageManager(path, PAGE)
                           : si::StorageManager::createNewMemoryStorageManager());
        hold();
        tree.reset(si::RTree::createNewRTree(manager(), 0.4, fanout(), fanout(), uint32_t(axes), si::RTree::RV_RSTAR, index));
    }

    ~Tree() override { release(); }

    void hold() {
        const uint32_t kept = uint32_t(atoi(pages)) * 4096 / PAGE;
        if (file) buffer.reset(si::StorageManager::createNewRandomEvictionsBuffer(*storage, kept, false));
    }

    void release() {
        tree.reset();
        buffer.reset();
        storage.reset();
    }

    si::IStorageManager &manager() { return buffer ? *buffer : *storage; }

    // In a file as many entries as fit into a page.
    uint32_t fanout() const { return file ? (PAGE - 12 - 16 * uint32_t(axes)) / (16 * uint32_t(axes) + 12) : 16; }

    void reopen() {
        if (!file) return;
        release();
        storage.reset(si::StorageManager::loadDiskStorageManager(path));
        hold();
        tree.reset(si::RTree::loadRTree(manager(), index));
    }

    void insert(const Row &row) override {
        if (!boxes.emplace(row.id, row).second) fail("an identifier twice");
        tree->insertData(0, nullptr, region(row.at, axes), si::id_type(row.id));
    }

    void remove(uint64_t id) override {
        auto found = boxes.find(id);
        if (found == boxes.end() || !tree->deleteData(region(found->second.at, axes), si::id_type(id))) fail("no object");
        boxes.erase(found);
    }

    void load(const Rows &rows) override {
        for (const Row &row : rows)
            if (!boxes.emplace(row.id, row).second) fail("an identifier twice");
        Stream stream(rows, axes);
        if (rows.empty()) return;
        tree.reset(si::RTree::createAndBulkLoadNewRTree(si::RTree::BLM_STR, stream, manager(), 0.99, fanout(), fanout(),
            uint32_t(axes), si::RTree::RV_RSTAR, index));
    }

    void search(Ask ask, const int32_t *box, Rows &rows) override {
        si::Region wanted = region(box, axes);
        auto encloses = [&](const Row &row) {
            for (int k = 0; k < axes; k++)
                if (row.at[k] > box[k] || row.at[axes + k] < box[axes + k]) return false;
            return true;
        };
        Visitor visitor([&](const Row &row) {
            if (ask != AROUND || encloses(row)) rows.push_back(row);
        });
        if (ask == INSIDE) tree->containsWhatQuery(wanted, visitor);
        else tree->intersectsWithQuery(wanted, visitor);
    }

    void nearest(size_t count, const int32_t *point, Pairs &found) override {
        double at[3];
        std::copy(point, point + axes, at);
        Visitor visitor([&](const Row &row) { found.emplace_back(distance(row, point, axes), row.id); });
        tree->nearestNeighborQuery(uint32_t(count), si::Point(at, uint32_t(axes)), visitor);
    }
};

using Layers = std::map<std::string, std::unique_ptr<Layer>>;

static std::unique_ptr<Layer> make_layer(const std::string &name, int axes) { return std::make_unique<Tree>(name, axes); }

static void reopen(Layers &layers) {
    for (auto &[name, layer] : layers) static_cast<Tree &>(*layer).reopen();
}

#else
#include <boost/geometry.hpp>
#include <boost/geometry/index/rtree.hpp>

namespace bg = boost::geometry;
namespace bgi = boost::geometry::index;

static void open_database() {}

template <size_t N> struct Tree : Layer {
    using Point = bg::model::point<int32_t, N, bg::cs::cartesian>;
    using Box = bg::model::box<Point>;
    using Value = std::pair<Box, uint64_t>;

    bgi::rtree<Value, bgi::rstar<16>> tree;
    std::unordered_map<uint64_t, Box> boxes;

    Tree() : Layer(N) {}

    static Point point_of(const int32_t *at) {
        Point point;
        bg::set<0>(point, at[0]);
        bg::set<1>(point, at[1]);
        if constexpr (N == 3) bg::set<2>(point, at[2]);
        return point;
    }

    static Box box_of(const int32_t *at) { return Box(point_of(at), point_of(at + N)); }

    static void put(const Point &point, int32_t *at) {
        at[0] = bg::get<0>(point);
        at[1] = bg::get<1>(point);
        if constexpr (N == 3) at[2] = bg::get<2>(point);
    }

    static Row row_of(const Value &value) {
        Row row;
        row.id = value.second;
        put(value.first.min_corner(), row.at);
        put(value.first.max_corner(), row.at + N);
        return row;
    }

    void insert(const Row &row) override {
        if (!boxes.emplace(row.id, box_of(row.at)).second) fail("an identifier twice");
        tree.insert(Value(box_of(row.at), row.id));
    }

    void remove(uint64_t id) override {
        auto found = boxes.find(id);
        if (found == boxes.end()) fail("no object");
        tree.remove(Value(found->second, id));
        boxes.erase(found);
    }

    void load(const Rows &rows) override {
        std::vector<Value> values;
        values.reserve(rows.size());
        boxes.reserve(rows.size());
        for (const Row &row : rows) {
            if (!boxes.emplace(row.id, box_of(row.at)).second) fail("an identifier twice");
            values.emplace_back(box_of(row.at), row.id);
        }
        tree = decltype(tree)(values.begin(), values.end());
    }

    void search(Ask ask, const int32_t *box, Rows &rows) override {
        const Box wanted = box_of(box);
        auto take = [&](const auto &predicate) {
            for (auto it = tree.qbegin(predicate); it != tree.qend(); ++it) rows.push_back(row_of(*it));
        };
        if (ask == WINDOW) take(bgi::intersects(wanted));
        else if (ask == INSIDE) take(bgi::covered_by(wanted));
        else take(bgi::covers(wanted));
    }

    // It is asked for one more, and for twice as many while the last is as near as the one that counts.
    void nearest(size_t count, const int32_t *point, Pairs &found) override {
        std::vector<Value> values;
        for (size_t wanted = count + 1;; wanted *= 2) {
            values.clear();
            found.clear();
            tree.query(bgi::nearest(point_of(point), unsigned(wanted)), std::back_inserter(values));
            for (const Value &value : values) found.emplace_back(distance(row_of(value), point, N), value.second);
            std::sort(found.begin(), found.end());
            if (found.size() < wanted || found[count - 1].first < found.back().first) return;
        }
    }
};

using Layers = std::map<std::string, std::unique_ptr<Layer>>;

static std::unique_ptr<Layer> make_layer(const std::string &, int axes) {
    if (axes == 2) return std::make_unique<Tree<2>>();
    return std::make_unique<Tree<3>>();
}

static void reopen(Layers &) {}
#endif

static Layers layers;
static Layer *loading; // the layer whose entry lines are read
static size_t awaited; // how many of them are to come
static Rows rows;
static std::string out;

// The words of a line.
struct Words {
    const char *at, *end;

    std::string_view word() {
        while (at < end && *at == ' ') at++;
        const char *from = at;
        while (at < end && *at != ' ') at++;
        return {from, size_t(at - from)};
    }

    bool is_done() {
        while (at < end && *at == ' ') at++;
        return at == end;
    }

    template <class T> T number() {
        T value = 0;
        std::string_view text = word();
        if (std::from_chars(text.begin(), text.end(), value).ec != std::errc()) fail("a bad line");
        return value;
    }

    Layer &layer() {
        auto found = layers.find(std::string(word()));
        if (found == layers.end()) fail("no layer");
        return *found->second;
    }

    void numbers(int32_t *to, int count) {
        for (int k = 0; k < count; k++) to[k] = number<int32_t>();
    }

    Row row(int axes) {
        Row row;
        row.id = number<uint64_t>();
        numbers(row.at, 2 * axes);
        return row;
    }
};

template <class T> static void print(T value, char behind) {
    char digits[24];
    out.append(digits, std::to_chars(digits, digits + sizeof digits, value).ptr);
    out += behind;
}

static void answer(const Pairs &pairs, size_t count) {
    out += "ok ";
    print(count, '\n');
    for (size_t k = 0; k < count; k++) {
        print(pairs[k].first, ' ');
        print(pairs[k].second, '\n');
    }
}

static void answer_search(Layer &layer, Ask ask, const int32_t *box) {
    rows.clear();
    layer.search(ask, box, rows);
    std::sort(rows.begin(), rows.end(), [](const Row &a, const Row &b) { return a.id < b.id; });
    out += "ok ";
    print(rows.size(), '\n');
    for (const Row &row : rows) {
        print(row.id, ' ');
        for (int k = 0; k < 2 * layer.axes; k++) print(row.at[k], k + 1 < 2 * layer.axes ? ' ' : '\n');
    }
}

static void answer_nearest(Layer &layer, Words &words) {
    static Pairs found;
    int32_t point[3];
    size_t count = words.number<size_t>();
    words.numbers(point, layer.axes);
    found.clear();
    if (layer.size > 0) layer.nearest(count, point, found);
    std::sort(found.begin(), found.end());
    for (auto &[far, id] : found) std::swap(far, id);
    answer(found, std::min(count, found.size()));
}

static void answer_join(Layer &layer, Words &words) {
    Pairs found;
    Layer &other = words.layer();
    layer.join(other, words.is_done() ? 0 : words.number<uint64_t>(), found);
    std::sort(found.begin(), found.end());
    answer(found, found.size());
}

static bool question(std::string_view name, Layer &layer, Words &words) {
    int32_t box[6];
    if (name == "window" || name == "inside" || name == "around") {
        words.numbers(box, 2 * layer.axes);
        answer_search(layer, name == "window" ? WINDOW : name == "inside" ? INSIDE : AROUND, box);
    } else if (name == "point") {
        words.numbers(box, layer.axes);
        std::copy(box, box + layer.axes, box + layer.axes);
        answer_search(layer, WINDOW, box);
    } else if (name == "nearest") {
        answer_nearest(layer, words);
    } else if (name == "join") {
        answer_join(layer, words);
    } else if (name == "count") {
        out += "ok 1\n";
        print(layer.size, '\n');
    } else {
        return false;
    }
    return true;
}

static bool change(std::string_view name, Layer &layer, Words &words) {
    if (name == "insert") {
        layer.insert(words.row(layer.axes));
        layer.size++;
    } else if (name == "move") {
        layer.move(words.row(layer.axes));
    } else if (name == "delete") {
        layer.remove(words.number<uint64_t>());
        layer.size--;
    } else {
        return false;
    }
    out += "ok\n";
    return true;
}

static void load_rows() {
    loading->load(rows);
    loading->size = rows.size();
    loading = nullptr;
    rows = Rows();
    out += "ok\n";
}

static void begin_load(Layer &layer, size_t count) {
    loading = &layer;
    awaited = count;
    rows.clear();
    if (count == 0) load_rows();
}

static void answer_line(Words words) {
    if (loading) {
        rows.push_back(words.row(loading->axes));
        if (rows.size() == awaited) load_rows();
        return;
    }
    std::string_view name = words.word();
    if (name == "create") {
        std::string layer(words.word());
        layers[layer] = make_layer(layer, words.number<int>());
        out += "ok\n";
    } else if (name == "reopen") {
        reopen(layers);
        out += "ok\n";
    } else {
        Layer &layer = words.layer();
        if (name == "load") begin_load(layer, words.number<size_t>());
        else if (!question(name, layer, words) && !change(name, layer, words)) fail("a bad line");
    }
}

static void hand_on() {
    fwrite(out.data(), 1, out.size(), stdout);
    fflush(stdout);
    out.clear();
}

int main(int count, char **words) {
    static char line[4096];
    pages = count > 1 ? words[1] : "64";
    file = count > 2 ? words[2] : nullptr;
    journal = count > 3 ? words[3] : nullptr;
    setvbuf(stdin, nullptr, _IOFBF, 1 << 16);
    open_database();
    while (fgets(line, sizeof line, stdin)) {
        answer_line({line, line + strcspn(line, "\n")});
        if (out.size() > 60000 || journal) hand_on();
    }
    reopen(layers);
    hand_on();
}
