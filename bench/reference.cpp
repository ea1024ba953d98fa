// The benchmark's other side: the same program written again in C++, unverified, for speed.
//
// It reads a feed on standard input and prints the program's lines. It shares nothing with the library but the rules in docs/: quotes are
// answered by a multi-constrained label-setting search in order of rank, with one binary heap of one-word keys, links in adjacency lists,
// and the labels of each site in arrays of their own that are compared sixteen bytes at a time.
//
// Usage: reference [--sites N] [--places N] [--cards N] [--labels K] [--wide] [--heap] [--plain] [--stats] < FEED
//   --wide   no one-word keys and no half-width values: the general representation, whatever the limits are
//   --heap   a binary heap and adjacency lists alone, as one writes this search first
//   --plain  no structures: each turn scans all labels for the first in rank, and all link places for the links of its site
//   --stats  prints to standard error, for each quote that was answered, the labels settled and the labels made, and then the means
#include <algorithm>
#include <cstdint>
#include <cstdio>
#include <cstdlib>
#include <cstring>
#include <numeric>
#include <optional>
#include <string>
#include <type_traits>
#include <vector>
#if defined(__SSE2__)
#include <emmintrin.h>
#endif

namespace {

using u8 = std::uint8_t;
using u16 = std::uint16_t;
using u32 = std::uint32_t;
using u64 = std::uint64_t;

constexpr u32 OVER = 1u << 31;
constexpr u32 MOST_LABELS = 64;
constexpr u32 NO_LABEL = ~0u;
constexpr int SLICE_BITS = 11;
constexpr u32 SLICES = 1u << SLICE_BITS;

// ---------------------------------------------------------------- values, limits, ratios

struct Value {
    u32 delay, price, grade;
};

bool operator==(const Value &a, const Value &b) { return a.delay == b.delay && a.price == b.price && a.grade == b.grade; }

inline u32 added(u32 a, u32 b) { return static_cast<u32>(std::min<u64>(static_cast<u64>(a) + b, OVER)); }
inline Value joined(const Value &a, const Value &b) { return {added(a.delay, b.delay), added(a.price, b.price), std::max(a.grade, b.grade)}; }
inline bool within(const Value &a, const Value &limit) { return (a.delay <= limit.delay) & (a.price <= limit.price) & (a.grade <= limit.grade); }
inline bool dominates(const Value &a, const Value &b) { return within(a, b); }
inline bool admitted(const Value &a) { return a.delay < OVER && a.price < OVER && a.grade < OVER; }
inline bool limit_admitted(const Value &a) { return admitted(a) && a.delay && a.price && a.grade; }
inline Value as_held(const Value &a) { return {std::min(a.delay, OVER), std::min(a.price, OVER), std::min(a.grade, OVER)}; }

inline bool earlier(const Value &a, const Value &b) {
    if (a.delay != b.delay) return a.delay < b.delay;
    if (a.price != b.price) return a.price < b.price;
    return a.grade < b.grade;
}

struct Ratio {
    u32 top, bottom;
};

inline bool less(const Ratio &a, const Ratio &b) { return static_cast<u64>(a.top) * b.bottom < static_cast<u64>(b.top) * a.bottom; }
inline Ratio greater_of(const Ratio &a, const Ratio &b) { return less(a, b) ? b : a; }
inline Ratio ratio_of(const Value &a, const Value &limit) {
    return greater_of(greater_of({a.delay, limit.delay}, {a.price, limit.price}), {a.grade, limit.grade});
}

inline bool ranks_before(const Value &a, const Value &b, const Value &limit) {
    Ratio x = ratio_of(a, limit), y = ratio_of(b, limit);
    u64 left = static_cast<u64>(x.top) * y.bottom, right = static_cast<u64>(y.top) * x.bottom;
    return left != right ? left < right : earlier(a, b);
}

// ---------------------------------------------------------------- the catalogue

struct Link {
    u16 start, end;
    Value value;
    bool taken;
};

// What a search reads of a link: sixteen bytes, those of one site side by side.
struct Hop {
    u32 delay, price;
    u32 grade;
    u16 end, place;
};

class Catalogue {
  public:
    std::vector<Link> links;
    u32 sites;

    Catalogue(u32 sites, u32 places) : links(places, Link{0, 0, {0, 0, 0}, false}), sites(sites), first_(sites + 1) {}

    void touched() { fresh_ = false; }

    // The links by their start sites, in order of place; made again only after news.
    void prepare() {
        if (fresh_) return;
        std::fill(first_.begin(), first_.end(), 0);
        for (const Link &link : links)
            if (link.taken) first_[link.start + 1]++;
        for (u32 site = 0; site < sites; site++) first_[site + 1] += first_[site];
        hops_.resize(first_[sites]);
        std::vector<u32> at(first_.begin(), first_.end() - 1);
        for (u32 place = 0; place < links.size(); place++) {
            const Link &link = links[place];
            if (link.taken)
                hops_[at[link.start]++] = Hop{link.value.delay, link.value.price, link.value.grade, link.end, static_cast<u16>(place)};
        }
        fresh_ = true;
    }

    const Hop *begin(u32 site) const { return hops_.data() + first_[site]; }
    const Hop *end(u32 site) const { return hops_.data() + first_[site + 1]; }

  private:
    std::vector<u32> first_;
    std::vector<Hop> hops_;
    bool fresh_ = false;
};

// ---------------------------------------------------------------- the search

struct Ask {
    u16 source, destination;
    Value limit;
};

struct Answer {
    enum Kind { None, Route, Full, TooMany } kind;
    Value value;
    u32 full_site;
    std::vector<u16> legs;
};

struct Counts {
    u64 settled = 0, made = 0, tried = 0;
};

// Labels of one site in one line of the cache: their values in rows, so that one instruction compares several, and who they are.
template <class Number> struct alignas(64) Block {
    using Name = std::make_unsigned_t<Number>;
    static constexpr u32 lanes = 16 / sizeof(Number);
    Number delay[lanes], price[lanes], grade[lanes];
    Name label[lanes];
};

#if defined(__SSE2__)
template <class Number> struct Vector;
template <> struct Vector<std::int16_t> {
    static __m128i all(u32 x) { return _mm_set1_epi16(static_cast<short>(x)); }
    static __m128i greater(__m128i a, __m128i b) { return _mm_cmpgt_epi16(a, b); }
    static u32 zeros(__m128i m) { return ~static_cast<u32>(_mm_movemask_epi8(_mm_packs_epi16(m, _mm_setzero_si128()))) & 0xffu; }
};
template <> struct Vector<std::int32_t> {
    static __m128i all(u32 x) { return _mm_set1_epi32(static_cast<int>(x)); }
    static __m128i greater(__m128i a, __m128i b) { return _mm_cmpgt_epi32(a, b); }
    static u32 zeros(__m128i m) { return ~static_cast<u32>(_mm_movemask_ps(_mm_castsi128_ps(m))) & 0xfu; }
};
inline __m128i row(const void *numbers) { return _mm_load_si128(static_cast<const __m128i *>(numbers)); }

// One value in every lane, to be compared with the values of a block; the answers have one bit a lane.
template <class Number> class Compared {
  public:
    explicit Compared(const Value &v) : delay_(V::all(v.delay)), price_(V::all(v.price)), grade_(V::all(v.grade)) {}

    u32 dominators(const Block<Number> &block) const {
        const __m128i delay = V::greater(row(block.delay), delay_), price = V::greater(row(block.price), price_), grade = V::greater(row(block.grade), grade_);
        return V::zeros(_mm_or_si128(_mm_or_si128(delay, price), grade));
    }
    u32 dominated(const Block<Number> &block) const {
        const __m128i delay = V::greater(delay_, row(block.delay)), price = V::greater(price_, row(block.price)), grade = V::greater(grade_, row(block.grade));
        return V::zeros(_mm_or_si128(_mm_or_si128(delay, price), grade));
    }

  private:
    using V = Vector<Number>;
    __m128i delay_, price_, grade_;
};
#else
template <class Number> class Compared {
  public:
    explicit Compared(const Value &v) : v_(v) {}

    u32 dominators(const Block<Number> &block) const {
        u32 found = 0;
        for (u32 i = 0; i < block.lanes; i++)
            found |= u32(u32(block.delay[i]) <= v_.delay && u32(block.price[i]) <= v_.price && u32(block.grade[i]) <= v_.grade) << i;
        return found;
    }
    u32 dominated(const Block<Number> &block) const {
        u32 found = 0;
        for (u32 i = 0; i < block.lanes; i++)
            found |= u32(v_.delay <= u32(block.delay[i]) && v_.price <= u32(block.price[i]) && v_.grade <= u32(block.grade[i])) << i;
        return found;
    }

  private:
    Value v_;
};
#endif

// Keys of one word: in mixed radix the ratio over the least common multiple of the limits, delay, price, class, and the label's number. The
// whole rank is one comparison of integers, and exact. Whether they fit depends on the limit.
class WordKeys {
  public:
    using Key = u64;
    static constexpr u32 most_labels = 1u << 16;

    static std::optional<WordKeys> of(const Value &limit) {
        using Wide = unsigned __int128;
        const Wide grade_step = most_labels, price_step = grade_step * (limit.grade + 1ull), delay_step = price_step * (limit.price + 1ull);
        if (delay_step >> 64) return {};
        const Wide share_step = delay_step * (limit.delay + 1ull);
        const u64 multiple = std::lcm<u64>(limit.delay, limit.price), third = limit.grade / std::gcd<u64>(multiple, limit.grade);
        if (share_step >> 64 || static_cast<Wide>(multiple) * third >> 64) return {};
        const u64 whole = multiple * third;
        if (whole + 1 == 0 || share_step * (whole + 1) > static_cast<u64>(-1)) return {};
        const auto step = static_cast<u64>(share_step);
        WordKeys keys;
        keys.share_of_delay_ = whole / limit.delay * step, keys.share_of_price_ = whole / limit.price * step, keys.share_of_grade_ = whole / limit.grade * step;
        keys.delay_ = static_cast<u64>(delay_step), keys.price_ = static_cast<u64>(price_step);
        const u64 greatest = step * (whole + 1);
        keys.slice_at_ = std::max(0, 64 - __builtin_clzll(greatest) - SLICE_BITS);
        return keys;
    }

    Key key(const Value &v, u32 label) const {
        const u64 share = std::max(std::max(v.delay * share_of_delay_, v.price * share_of_price_), v.grade * share_of_grade_);
        return share + v.delay * delay_ + v.price * price_ + static_cast<u64>(v.grade) * most_labels + label;
    }
    static u32 label(Key key) { return key & (most_labels - 1); }
    static Key latest() { return ~Key{0}; }
    u32 slice(Key key) const { return key >> slice_at_; }
    bool first(Key a, Key b) const { return a < b; }

  private:
    u64 share_of_delay_, share_of_price_, share_of_grade_, delay_, price_;
    u32 slice_at_;
};

// Keys for every limit: the ratio rounded, which never turns an order round; where two are rounded alike, the exact rank.
class WideKeys {
  public:
    struct Key {
        double ratio;
        u32 delay, price, grade, label;
    };
    static constexpr u32 most_labels = NO_LABEL;

    explicit WideKeys(const Value &limit) : limit_(limit) {}

    Key key(const Value &v, u32 label) const {
        Ratio r = ratio_of(v, limit_);
        return {static_cast<double>(r.top) / r.bottom, v.delay, v.price, v.grade, label};
    }
    static u32 label(const Key &key) { return key.label; }
    static Key latest() { return {2.0, 0, 0, 0, NO_LABEL}; }
    u32 slice(const Key &key) const { return static_cast<u32>(key.ratio * (SLICES - 1)); }
    bool first(const Key &a, const Key &b) const {
        if (a.ratio != b.ratio) return a.ratio < b.ratio;
        return ranks_before({a.delay, a.price, a.grade}, {b.delay, b.price, b.grade}, limit_);
    }

  private:
    Value limit_;
};

// A binary heap, with holes moved instead of swaps.
template <class Keys> class Heap {
  public:
    using Key = typename Keys::Key;

    void clear() { count_ = 0; }
    bool is_empty() const { return !count_; }

    void push(const Keys &keys, const Key &key) {
        if (count_ == heap_.size()) heap_.resize(2 * heap_.size());
        u32 at = count_++;
        while (at > 0) {
            u32 parent = (at - 1) / 2;
            if (!keys.first(key, heap_[parent])) break;
            heap_[at] = heap_[parent];
            at = parent;
        }
        heap_[at] = key;
    }

    Key pop(const Keys &keys) {
        const Key top = heap_[0], last = heap_[--count_];
        u32 at = 0;
        for (u32 child = 1; child < count_; child = 2 * at + 1) {
            child += child + 1 < count_ && keys.first(heap_[child + 1], heap_[child]);
            if (!keys.first(heap_[child], last)) break;
            heap_[at] = heap_[child];
            at = child;
        }
        heap_[at] = last;
        return top;
    }

  private:
    std::vector<Key> heap_ = std::vector<Key>(1024);
    u32 count_ = 0;
};

// The queued labels in order of rank. What is far off is only sorted into slices of the ratio; a heap holds the slices up to the present
// one. Keys never fall below the one popped last. However the ratios lie, it is no slower than the heap alone by more than a few steps.
template <class Keys> class Queue {
  public:
    using Key = typename Keys::Key;

    void start() {
        near_.clear();
        present_ = 0;
        std::fill(std::begin(filled_), std::end(filled_), 0);
    }

    void push(const Keys &keys, const Key &key) {
        const u32 slice = keys.slice(key);
        if (slice <= present_) return near_.push(keys, key);
        const u32 label = Keys::label(key);
        if (label >= far_.size()) far_.resize(std::max<size_t>(label + 1, 2 * far_.size()));
        u64 &word = filled_[slice / 64];
        const u64 bit = u64{1} << slice % 64;
        far_[label] = {key, word & bit ? first_[slice] : NO_LABEL};
        word |= bit;
        first_[slice] = label;
    }

    // The first in rank, or nothing; the dead may be left out.
    bool pop(const Keys &keys, const std::vector<u8> &dead, Key &key) {
        while (near_.is_empty()) {
            u32 at = present_ / 64;
            while (at < SLICES / 64 && !filled_[at]) at++;
            if (at == SLICES / 64) return false;
            present_ = at * 64 + __builtin_ctzll(filled_[at]);
            filled_[at] &= filled_[at] - 1;
            for (u32 label = first_[present_]; label != NO_LABEL; label = far_[label].next)
                if (!dead[label]) near_.push(keys, far_[label].key);
        }
        key = near_.pop(keys);
        return true;
    }

  private:
    struct Far {
        Key key;
        u32 next;
    };
    Heap<Keys> near_;
    std::vector<Far> far_ = std::vector<Far>(4096);
    u64 filled_[SLICES / 64];
    u32 first_[SLICES];
    u32 present_ = 0;
};

struct Label {
    Value value;
    u32 before; // the label that it extends
    u16 site, place;
};

template <class Keys, class Number> class Search {
  public:
    Answer run(const Catalogue &catalogue, const Ask &ask, u32 k, const Keys &keys, Counts &counts) {
        start(catalogue.sites);
        auto latest = Keys::latest(); // the first in rank at the destination: what ranks after it is never settled
        store(ask.source, {0, 0, 0}, NO_LABEL, 0);
        queue_.push(keys, keys.key({0, 0, 0}, 0));
        typename Keys::Key key;
        while (queue_.pop(keys, dead_, key)) {
            const u32 label = Keys::label(key);
            if (dead_[label]) continue;
            const Label here = labels_[label];
            if (here.site == ask.destination) return {Answer::Route, here.value, 0, legs(label)};
            counts.settled++;
            // A link back to the site before gives what the label there dominates.
            const u32 back = here.before == NO_LABEL ? here.site : labels_[here.before].site;
            const Hop *end = catalogue.end(here.site);
            for (const Hop *hop = catalogue.begin(here.site); hop != end; hop++) {
                if (hop->end == back) continue;
                const Value v = {here.value.delay + hop->delay, here.value.price + hop->price, std::max(here.value.grade, hop->grade)};
                if (!within(v, ask.limit)) continue; // no sum of two numbers below 2^31 wraps
                counts.tried++;
                if (!make_room(hop->end, v)) continue;
                if (count_[hop->end] == k) return {Answer::Full, {}, hop->end, {}};
                const u32 newcomer = store(hop->end, v, label, hop->place);
                if (newcomer >= Keys::most_labels) return {Answer::TooMany, {}, 0, {}};
                const auto rank = keys.key(v, newcomer);
                if (!keys.first(rank, latest)) continue;
                if (hop->end == ask.destination) latest = rank;
                queue_.push(keys, rank);
            }
        }
        return {Answer::None, {}, 0, {}};
    }

    u32 made() const { return made_; }

  private:
    static constexpr u32 lanes = Block<Number>::lanes;
    std::vector<Block<Number>> blocks_; // first the first block of each site, then the second of each, and so on
    std::vector<u32> count_;
    std::vector<Label> labels_ = std::vector<Label>(4096);
    std::vector<u8> dead_ = std::vector<u8>(4096);
    Queue<Keys> queue_;
    u32 made_ = 0, sites_ = 0;

    void start(u32 sites) {
        if (sites_ != sites) blocks_.resize(sites * (MOST_LABELS / lanes));
        sites_ = sites;
        count_.assign(sites, 0);
        queue_.start();
        made_ = 0;
    }

    // Whether no label at the site dominates the value; then those that it dominates are gone.
    bool make_room(u32 site, const Value &v) {
        const Compared<Number> compared(v);
        u32 count = count_[site];
        Block<Number> *block = &blocks_[site];
        for (u32 from = 0; from < count; from += lanes, block += sites_)
            if (compared.dominators(*block) << (32 - std::min(lanes, count - from))) return false;
        block = &blocks_[site];
        u64 worse = 0;
        for (u32 from = 0; from < count; from += lanes, block += sites_)
            worse |= static_cast<u64>(compared.dominated(*block) & ((1u << std::min(lanes, count - from)) - 1)) << from;
        while (worse) {
            const u32 at = 63 - __builtin_clzll(worse);
            worse ^= u64{1} << at;
            remove(site, at);
        }
        return true;
    }

    void remove(u32 site, u32 at) {
        const u32 last = --count_[site];
        Block<Number> &to = blocks_[at / lanes * sites_ + site];
        const Block<Number> &from = blocks_[last / lanes * sites_ + site];
        const u32 i = at % lanes, j = last % lanes;
        dead_[to.label[i]] = 1;
        to.delay[i] = from.delay[j], to.price[i] = from.price[j], to.grade[i] = from.grade[j], to.label[i] = from.label[j];
    }

    u32 store(u32 site, const Value &v, u32 before, u16 place) {
        if (made_ == labels_.size()) labels_.resize(2 * made_), dead_.resize(2 * made_);
        const u32 label = made_++, at = count_[site]++, i = at % lanes;
        labels_[label] = {v, before, static_cast<u16>(site), place};
        dead_[label] = 0;
        Block<Number> &block = blocks_[at / lanes * sites_ + site];
        block.delay[i] = v.delay, block.price[i] = v.price, block.grade[i] = v.grade, block.label[i] = label;
        return label;
    }

    std::vector<u16> legs(u32 label) const {
        std::vector<u16> found;
        for (; labels_[label].before != NO_LABEL; label = labels_[label].before) found.push_back(labels_[label].place);
        std::reverse(found.begin(), found.end());
        return found;
    }
};

// The same search as one writes it first, with a binary heap and adjacency lists, and none of the rest: labels of all sites in one array,
// those held at a site in a list of its own, and a queue of the standard library's heap by rounded ratios, equal ones compared exactly.
class HeapSearch {
  public:
    Answer run(const Catalogue &catalogue, const Ask &ask, u32 k, Counts &counts) {
        for (u32 site : touched_) held_[site].clear();
        touched_.clear(), labels_.clear(), queue_.clear();
        held_.resize(catalogue.sites);
        limit_ = ask.limit;
        u32 latest = NO_LABEL; // the first in rank that is queued at the destination
        store(ask.source, {0, 0, 0}, NO_LABEL, 0);
        while (!queue_.empty()) {
            std::pop_heap(queue_.begin(), queue_.end(), After{*this});
            const u32 label = queue_.back().label;
            queue_.pop_back();
            if (labels_[label].state == Free) continue;
            labels_[label].state = Settled;
            const Label here = labels_[label];
            if (here.site == ask.destination) return {Answer::Route, here.value, 0, legs(label)};
            counts.settled++;
            const Hop *end = catalogue.end(here.site);
            for (const Hop *hop = catalogue.begin(here.site); hop != end; hop++) {
                const Value v = joined(here.value, {hop->delay, hop->price, hop->grade});
                if (!within(v, ask.limit) || is_dominated(hop->end, v)) continue;
                if (latest != NO_LABEL && !ranks_before(v, labels_[latest].value, limit_)) continue;
                drop_dominated(hop->end, v);
                if (held_[hop->end].size() == k) return {Answer::Full, {}, hop->end, {}};
                store(hop->end, v, label, hop->place);
                if (hop->end == ask.destination) latest = static_cast<u32>(labels_.size() - 1);
            }
        }
        return {Answer::None, {}, 0, {}};
    }

    u32 made() const { return static_cast<u32>(labels_.size()); }

  private:
    enum State : u8 { Free, Queued, Settled };
    struct Label {
        Value value;
        u32 before;
        u16 site, place;
        State state;
    };
    struct Entry {
        double ratio;
        u32 label;
    };
    struct After {
        const HeapSearch &search;
        bool operator()(const Entry &a, const Entry &b) const {
            if (a.ratio != b.ratio) return a.ratio > b.ratio;
            return ranks_before(search.labels_[b.label].value, search.labels_[a.label].value, search.limit_);
        }
    };
    std::vector<Label> labels_;
    std::vector<std::vector<u32>> held_;
    std::vector<u32> touched_;
    std::vector<Entry> queue_;
    Value limit_{1, 1, 1};

    bool is_dominated(u32 site, const Value &v) const {
        for (u32 label : held_[site])
            if (dominates(labels_[label].value, v)) return true;
        return false;
    }

    void drop_dominated(u32 site, const Value &v) {
        auto &held = held_[site];
        held.erase(std::remove_if(held.begin(), held.end(), [&](u32 label) {
            if (labels_[label].state != Queued || !dominates(v, labels_[label].value)) return false;
            labels_[label].state = Free;
            return true;
        }), held.end());
    }

    void store(u32 site, const Value &v, u32 before, u16 place) {
        const u32 label = static_cast<u32>(labels_.size());
        if (held_[site].empty()) touched_.push_back(site);
        labels_.push_back({v, before, static_cast<u16>(site), place, Queued});
        held_[site].push_back(label);
        const Ratio ratio = ratio_of(v, limit_);
        queue_.push_back({static_cast<double>(ratio.top) / ratio.bottom, label});
        std::push_heap(queue_.begin(), queue_.end(), After{*this});
    }

    std::vector<u16> legs(u32 label) const {
        std::vector<u16> found;
        for (; labels_[label].before != NO_LABEL; label = labels_[label].before) found.push_back(labels_[label].place);
        std::reverse(found.begin(), found.end());
        return found;
    }
};

// The search with plain scans: a table of sites times k labels, free, queued or settled.
class PlainSearch {
  public:
    Answer run(const Catalogue &catalogue, const Ask &ask, u32 k, Counts &counts) {
        table_.assign(catalogue.sites * k, Slot{});
        table_[ask.source * k].state = Queued;
        counts.made++;
        for (;;) {
            Slot *here = first_queued(ask.limit);
            if (!here) return {Answer::None, {}, 0, {}};
            const u32 label = static_cast<u32>(here - table_.data()), site = label / k;
            if (site == ask.destination) return {Answer::Route, here->value, 0, legs(label)};
            here->state = Settled;
            counts.settled++;
            for (u32 place = 0; place < catalogue.links.size(); place++) {
                const Link &link = catalogue.links[place];
                if (!link.taken || link.start != site) continue;
                const Value v = joined(here->value, link.value);
                if (!within(v, ask.limit)) continue;
                if (!keep(&table_[link.end * k], k, v, label, place, counts)) return {Answer::Full, {}, link.end, {}};
            }
        }
    }

  private:
    enum State : u8 { Free, Queued, Settled };
    struct Slot {
        Value value{0, 0, 0};
        u32 before = NO_LABEL;
        u16 place = 0;
        State state = Free;
    };
    std::vector<Slot> table_;

    Slot *first_queued(const Value &limit) {
        Slot *first = nullptr;
        for (Slot &slot : table_)
            if (slot.state == Queued && (!first || ranks_before(slot.value, first->value, limit))) first = &slot;
        return first;
    }

    bool keep(Slot *held, u32 k, const Value &v, u32 before, u32 place, Counts &counts) {
        for (u32 i = 0; i < k; i++)
            if (held[i].state != Free && dominates(held[i].value, v)) return true;
        Slot *room = nullptr;
        for (u32 i = 0; i < k; i++) {
            if (held[i].state == Queued && dominates(v, held[i].value)) held[i].state = Free;
            if (held[i].state == Free && !room) room = held + i;
        }
        if (!room) return false;
        *room = Slot{v, before, static_cast<u16>(place), Queued};
        counts.made++;
        return true;
    }

    std::vector<u16> legs(u32 label) const {
        std::vector<u16> found;
        for (; table_[label].before != NO_LABEL; label = table_[label].before) found.push_back(table_[label].place);
        std::reverse(found.begin(), found.end());
        return found;
    }
};

class Finder {
  public:
    bool wide = false, plain = false, heap = false, stats = false;
    u32 k = MOST_LABELS;

    Answer find(Catalogue &catalogue, const Ask &ask) {
        Counts counts;
        Answer answer = chosen(catalogue, ask, counts);
        searches_++, total_.settled += counts.settled, total_.made += counts.made, total_.tried += counts.tried;
        if (stats) std::fprintf(stderr, "quote %u settled %llu made %llu\n", searches_, (unsigned long long)counts.settled, (unsigned long long)counts.made);
        return answer;
    }

    void print_means() const {
        if (!stats || !searches_) return;
        double n = searches_;
        std::fprintf(stderr, "searches %u settled %.1f made %.1f tried %.1f one-word %u\n", searches_, total_.settled / n, total_.made / n, total_.tried / n, one_word_);
    }

  private:
    Search<WordKeys, std::int16_t> narrow_;
    Search<WordKeys, std::int32_t> word_;
    Search<WideKeys, std::int32_t> wide_;
    PlainSearch plain_;
    HeapSearch heap_;
    Counts total_;
    u32 searches_ = 0, one_word_ = 0;

    template <class S, class K> Answer counted(S &search, const K &keys, const Catalogue &catalogue, const Ask &ask, Counts &counts) {
        Answer answer = search.run(catalogue, ask, k, keys, counts);
        counts.made = search.made();
        return answer;
    }

    Answer chosen(Catalogue &catalogue, const Ask &ask, Counts &counts) {
        if (plain) return plain_.run(catalogue, ask, k, counts);
        catalogue.prepare();
        if (heap) {
            Answer answer = heap_.run(catalogue, ask, k, counts);
            counts.made = heap_.made();
            return answer;
        }
        if (auto keys = WordKeys::of(ask.limit); keys && !wide) {
            bool is_narrow = ask.limit.delay < 32768 && ask.limit.price < 32768 && ask.limit.grade < 32768;
            Answer answer = is_narrow ? counted(narrow_, *keys, catalogue, ask, counts) : counted(word_, *keys, catalogue, ask, counts);
            one_word_++;
            if (answer.kind != Answer::TooMany) return answer;
            counts = Counts{};
        }
        return counted(wide_, WideKeys(ask.limit), catalogue, ask, counts);
    }
};

// ---------------------------------------------------------------- cards and calls

struct Card {
    bool filled = false, standing = false, has_route = false;
    Ask ask{};
    Value value{};
    std::vector<u16> legs;
};

class Day {
  public:
    Finder finder;

    Day(u32 sites, u32 places, u32 cards) : catalogue_(sites, places), cards_(cards) { out_.reserve(1 << 20); }

    void serve(const std::vector<u8> &feed) {
        static const u32 bodies[8] = {0, 18, 14, 2, 18, 2, 2, 2};
        size_t at = 0;
        while (at < feed.size()) {
            line_++;
            u32 kind = feed[at];
            if (kind < 1 || kind > 7) return refuse(17, {at});
            size_t there = feed.size() - at - 1;
            if (there < bodies[kind]) return refuse(18, {at, bodies[kind] - there});
            serve_record(kind, feed.data() + at + 1);
            at += 1 + bodies[kind];
        }
    }

    void print() const { std::fwrite(out_.data(), 1, out_.size(), stdout); }

  private:
    Catalogue catalogue_;
    std::vector<Card> cards_;
    std::string out_;
    u64 line_ = 0;

    static u32 two(const u8 *b) { return b[0] << 8 | b[1]; }
    static u32 four(const u8 *b) { return static_cast<u32>(b[0]) << 24 | b[1] << 16 | b[2] << 8 | b[3]; }
    static Value three(const u8 *b) { return {four(b), four(b + 4), four(b + 8)}; }

    void number(u64 n) {
        char digits[20];
        char *at = digits + 20;
        do *--at = static_cast<char>('0' + n % 10);
        while (n /= 10);
        out_.append(at, digits + 20 - at);
    }
    void word(const char *text) { out_ += ' ', out_ += text; }
    void part(u64 n) { out_ += ' ', number(n); }
    void ok(u64 count) { number(line_), word("ok"), part(count), out_ += '\n'; }
    void refuse(u32 why, std::vector<u64> with = {}) {
        number(line_), word("refused"), part(why);
        for (u64 n : with) part(n);
        out_ += '\n';
    }
    void show(const Card &card) {
        number(line_), word(card.has_route ? "route" : "none"), word(card.standing ? "standing" : "doubtful");
        if (card.has_route) {
            Ratio r = ratio_of(card.value, card.ask.limit);
            part(r.top), out_ += '/', number(r.bottom);
            part(card.value.delay), part(card.value.price), part(card.value.grade), part(card.legs.size());
            for (u16 leg : card.legs) part(leg);
        }
        out_ += '\n';
    }

    static bool uses(const Card &card, u32 place) { return std::find(card.legs.begin(), card.legs.end(), place) != card.legs.end(); }
    static bool may_better(const Card &card, const Value &v) {
        return within(v, card.ask.limit) && !(card.has_route && !ranks_before(v, card.value, card.ask.limit));
    }
    template <class Struck> u64 doubt(Struck struck) {
        u64 fallen = 0;
        for (Card &card : cards_)
            if (card.filled && card.standing && struck(card)) card.standing = false, fallen++;
        return fallen;
    }

    void serve_record(u32 kind, const u8 *body) {
        u32 place = two(body);
        switch (kind) {
        case 1: return offer(place, two(body + 2), two(body + 4), three(body + 6));
        case 2: return change(place, three(body + 2));
        case 3: return withdraw(place);
        case 4: return quote(place, Ask{static_cast<u16>(two(body + 2)), static_cast<u16>(two(body + 4)), three(body + 6)});
        case 5: return recheck(place);
        case 6: return discard(place);
        default: return read(place);
        }
    }

    void offer(u32 place, u32 start, u32 end, const Value &v) {
        if (place >= catalogue_.links.size()) return refuse(4);
        if (start >= catalogue_.sites || end >= catalogue_.sites) return refuse(6);
        if (start == end) return refuse(7);
        if (!admitted(v)) return refuse(8);
        if (catalogue_.links[place].taken) return refuse(10);
        catalogue_.links[place] = {static_cast<u16>(start), static_cast<u16>(end), v, true};
        catalogue_.touched();
        ok(doubt([&](const Card &card) { return may_better(card, v); }));
    }

    void change(u32 place, const Value &v) {
        if (place >= catalogue_.links.size()) return refuse(4);
        if (!admitted(v)) return refuse(8);
        Link &link = catalogue_.links[place];
        if (!link.taken) return refuse(11);
        const Value was = link.value;
        link.value = v;
        catalogue_.touched();
        if (was == v) return ok(0);
        ok(doubt([&](const Card &card) { return uses(card, place) || (!dominates(was, v) && may_better(card, v)); }));
    }

    void withdraw(u32 place) {
        if (place >= catalogue_.links.size()) return refuse(4);
        if (!catalogue_.links[place].taken) return refuse(11);
        catalogue_.links[place].taken = false;
        catalogue_.touched();
        ok(doubt([&](const Card &card) { return uses(card, place); }));
    }

    void quote(u32 place, const Ask &ask) {
        if (place >= cards_.size()) return refuse(5);
        if (ask.source >= catalogue_.sites || ask.destination >= catalogue_.sites) return refuse(6);
        if (!limit_admitted(ask.limit)) return refuse(9);
        if (cards_[place].filled) return refuse(12);
        answer(cards_[place], ask);
    }

    void recheck(u32 place) {
        if (place >= cards_.size()) return refuse(5);
        Card &card = cards_[place];
        if (!card.filled) return refuse(13);
        if (card.standing) return show(card);
        answer(card, card.ask);
    }

    void answer(Card &card, const Ask &ask) {
        Answer found = finder.find(catalogue_, ask);
        if (found.kind == Answer::Full) return refuse(16, {found.full_site});
        card = Card{true, true, found.kind == Answer::Route, ask, found.value, std::move(found.legs)};
        show(card);
    }

    void discard(u32 place) {
        if (place >= cards_.size()) return refuse(5);
        if (!cards_[place].filled) return refuse(13);
        cards_[place] = Card{};
        ok(0);
    }

    void read(u32 place) {
        if (place >= cards_.size()) return refuse(5);
        if (!cards_[place].filled) return refuse(13);
        show(cards_[place]);
    }
};

std::vector<u8> all_of_input() {
    std::vector<u8> feed;
    u8 block[65536];
    while (size_t n = std::fread(block, 1, sizeof block, stdin)) feed.insert(feed.end(), block, block + n);
    return feed;
}

} // namespace

int main(int argc, char **argv) {
    u32 sites = 256, places = 4096, cards = 256, labels = MOST_LABELS;
    bool wide = false, plain = false, heap = false, stats = false;
    for (int i = 1; i < argc; i++) {
        std::string option = argv[i];
        if (option == "--wide") wide = true;
        else if (option == "--plain") plain = true;
        else if (option == "--heap") heap = true;
        else if (option == "--stats") stats = true;
        else if (i + 1 < argc && option == "--sites") sites = std::atoi(argv[++i]);
        else if (i + 1 < argc && option == "--places") places = std::atoi(argv[++i]);
        else if (i + 1 < argc && option == "--cards") cards = std::atoi(argv[++i]);
        else if (i + 1 < argc && option == "--labels") labels = std::atoi(argv[++i]);
        else return std::fprintf(stderr, "reference: what is %s?\n", argv[i]), 2;
    }
    if (sites < 1 || sites > 65536 || places < 1 || places > 65536 || cards < 1 || cards > 65536 || labels < 1 || labels > MOST_LABELS)
        return std::fprintf(stderr, "reference: no such size\n"), 2;
    Day day(sites, places, cards);
    day.finder.wide = wide, day.finder.plain = plain, day.finder.heap = heap, day.finder.stats = stats, day.finder.k = labels;
    day.serve(all_of_input());
    day.print();
    day.finder.print_means();
    return 0;
}
