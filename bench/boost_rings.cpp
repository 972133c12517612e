// `boost_rings (RING ITEM CALL COUNT HELD START TIMES)..`: makes the calls of the crate `ring_costs` on Boost's circular_buffer, for a
// counter of instructions. RING is `boost`. A call that it lacks ends the program with status 3.

#include <algorithm>
#include <boost/circular_buffer.hpp>
#include <cstdint>
#include <cstdio>
#include <cstdlib>
#include <string>
#include <vector>

using u64 = std::uint64_t;
template <class T> using Ring = boost::circular_buffer<T>;

constexpr std::size_t CAPACITY = 1000;

// Lets the compiler believe that a value is read and written here.
template <class T> inline void keep(T &value) { asm volatile("" : "+m"(value) : : "memory"); }

// Stands between two cases, for the counter.
[[gnu::noinline]] void mark_case(u64 &found) {
    found *= 31;
    keep(found);
}

// Does something for each of some numbers, and returns the sum of what was found. The ring is handed over, so that the compiler may
// keep its fields in registers.
template <class T, class Body> [[gnu::noinline]] u64 each(Ring<T> &ring, u64 times, Body body) {
    u64 sum = 0;
    for (u64 number = 0; number < times; number++) sum += body(ring, T(number));
    return sum;
}

template <class T> std::size_t copied(const Ring<T> &ring, std::vector<T> &output) {
    const auto count = std::min(output.size(), ring.size());
    const auto first = ring.array_one(), second = ring.array_two();
    const auto front = std::min<std::size_t>(count, first.second);
    std::copy(first.first, first.first + front, output.begin());
    std::copy(second.first, second.first + (count - front), output.begin() + front);
    return count;
}

// A number that is looked for. The bits are mixed twice, so that no branch on what a search finds is foretold.
u64 wanted(u64 number, u64 oldest, std::size_t len) {
    const u64 once = number * 0x9E3779B97F4A7C15, twice = (once ^ (once >> 32)) * 0xD6E8FEB86659FD93;
    return oldest + ((twice >> 40) * len >> 24);
}

struct Case {
    std::string call;
    std::size_t count, held, start;
    u64 times;
};

template <class T> u64 run(const Case &one) {
    Ring<T> ring(CAPACITY);
    for (std::size_t number = 0; number < one.start; number++) {
        ring.push_back(T(number));
        ring.pop_front();
    }
    for (std::size_t number = 0; number < one.held; number++) ring.push_back(T(number));
    std::vector<T> items(one.count);
    for (std::size_t number = 0; number < one.count; number++) items[number] = T(number);
    std::vector<T> output = items;
    Ring<T> other = ring;
    const u64 times = one.times;
    const std::size_t count = one.count, kept = one.held - std::min(one.held, count), whole = ring.size();
    const auto bring = [&items](Ring<T> &ring) { ring.insert(ring.end(), items.begin(), items.end()); };
    const auto call = [&](const char *name) { return one.call == name; };

    if (call("push")) return each(ring, times, [&](Ring<T> &ring, T number) { ring.push_back(number); return 0; });
    if (call("push_dequeue")) return each(ring, times, [&](Ring<T> &ring, T number) { ring.push_back(number); T item = ring.front(); ring.pop_front(); return item; });
    if (call("push_pop_back")) return each(ring, times, [&](Ring<T> &ring, T number) { ring.push_back(number); T item = ring.back(); ring.pop_back(); return item; });
    if (call("push_front")) return each(ring, times, [&](Ring<T> &ring, T number) { ring.push_front(number); return 0; });
    if (call("try_push_skip")) return each(ring, times, [&](Ring<T> &ring, T number) {
        const bool fits = !ring.full();
        if (fits) ring.push_back(number);
        if (!ring.empty()) ring.pop_front();
        return fits;
    });
    if (call("get")) return each(ring, times, [&](Ring<T> &ring, T) {
        u64 sum = 0;
        for (std::size_t index = 0; index < count; index++) if (index < ring.size()) sum ^= ring[index];
        return sum;
    });
    if (call("get_mut")) return each(ring, times, [&](Ring<T> &ring, T number) {
        for (std::size_t index = 0; index < count; index++) if (index < ring.size()) ring[index] = number;
        return 0;
    });
    if (call("get_signed")) return each(ring, times, [&](Ring<T> &ring, T number) {
        const auto len = ring.size();
        if (len >= 1) ring[len - 1] = number;
        return len >= 2 ? ring[len - 2] : T(0);
    });
    if (call("front_back")) return each(ring, times, [&](Ring<T> &ring, T number) {
        if (ring.empty()) return u64(0);
        ring.front() = number;
        return u64(ring.front() ^ ring.back());
    });
    if (call("contains")) return each(ring, times, [&](Ring<T> &ring, T number) { return std::find(ring.begin(), ring.end(), T(number + (u64(1) << 32))) != ring.end(); });
    if (call("partition_point") || call("binary_search")) return each(ring, times, [&](Ring<T> &ring, T number) {
        const u64 least = wanted(number, ring.front(), ring.size());
        return std::partition_point(ring.begin(), ring.end(), [&](T item) { return item < least; }) - ring.begin();
    });
    if (call("iter")) return each(ring, times, [&](Ring<T> &ring, T) {
        u64 sum = 0;
        for (T item : ring) sum = (sum << 1 | sum >> 63) ^ item;
        return sum;
    });
    if (call("to_vec") || call("to_vec_copied")) return each(ring, times, [&](Ring<T> &ring, T) { std::vector<T> made(ring.begin(), ring.end()); keep(made); return made.size(); });
    if (call("clone") || call("copied")) return each(ring, times, [&](Ring<T> &ring, T) { Ring<T> made(ring); keep(made); return made.back(); });
    if (call("clone_into") || call("copy_into")) return each(ring, times, [&](Ring<T> &ring, T) { other.assign(ring.begin(), ring.end()); return other.back(); });
    if (call("eq")) return each(ring, times, [&](Ring<T> &ring, T number) { other.back() = number; return ring == other; });
    if (call("order")) return each(ring, times, [&](Ring<T> &ring, T number) { other.back() = number; return ring < other; });
    if (call("fill")) return each(ring, times, [&](Ring<T> &ring, T number) { ring.assign(ring.capacity(), number); return 0; });
    if (call("clear_extend")) return each(ring, times, [&](Ring<T> &ring, T) { ring.clear(); bring(ring); return 0; });
    if (call("in") || call("clones_in") || call("extend")) return each(ring, times, [&](Ring<T> &ring, T) { bring(ring); return ring.size(); });
    if (call("copy")) return each(ring, times, [&](Ring<T> &ring, T) { const auto some = copied(ring, output); keep(output); return some; });
    if (call("take_in")) return each(ring, times, [&](Ring<T> &ring, T) { const auto some = copied(ring, output); ring.erase_begin(some); bring(ring); return some; });
    if (call("remove_insert")) return each(ring, times, [&](Ring<T> &ring, T number) {
        const T item = ring[count];
        ring.erase(ring.begin() + count);
        ring.insert(ring.begin() + count, number);
        return item;
    });
    if (call("swap")) return each(ring, times, [&](Ring<T> &ring, T) { std::swap(ring[0], ring[count]); keep(ring); return 0; });
    if (call("rotate_left")) return each(ring, times, [&](Ring<T> &ring, T) { ring.rotate(ring.begin() + count); return 0; });
    if (call("drain_extend")) return each(ring, times, [&](Ring<T> &ring, T) {
        u64 sum = 0;
        for (T item : ring) sum ^= item;
        ring.clear();
        bring(ring);
        return sum;
    });
    if (call("truncate_in")) return each(ring, times, [&](Ring<T> &ring, T) { ring.erase_end(ring.size() - kept); bring(ring); return 0; });
    if (call("keep_newest_in")) return each(ring, times, [&](Ring<T> &ring, T) { ring.erase_begin(ring.size() - kept); bring(ring); return 0; });
    if (call("remove_range_extend")) return each(ring, times, [&](Ring<T> &ring, T) { ring.erase(ring.begin() + 1, ring.begin() + 1 + count); bring(ring); return 0; });
    if (call("retain_push")) return each(ring, times, [&](Ring<T> &ring, T number) {
        ring.erase(std::remove_if(ring.begin(), ring.end(), [&](T item) { return item % 8 == number % 8; }), ring.end());
        while (ring.size() < whole) ring.push_back(number);
        return 0;
    });
    if (call("in_contiguous")) return each(ring, times, [&](Ring<T> &ring, T) { bring(ring); return ring.linearize()[ring.size() - 1]; });
    if (call("turn_contiguous")) return each(ring, times, [&](Ring<T> &ring, T) { ring.rotate(ring.begin() + count); return ring.linearize()[ring.size() - 1]; });
    std::exit(3);
}

int main(int count, char **words) {
    u64 found = 1;
    for (int at = 1; at + 7 <= count; at += 7) {
        mark_case(found);
        const auto number = [&](int place) { return std::strtoull(words[at + place], nullptr, 10); };
        const Case one{words[at + 2], number(3), number(4), number(5), number(6)};
        const std::string item = words[at + 1];
        if (std::string(words[at]) != "boost" || (item != "u8" && item != "u64")) std::exit(3);
        found += item == "u8" ? run<std::uint8_t>(one) : run<u64>(one);
    }
    mark_case(found);
    std::printf("done %llu\n", static_cast<unsigned long long>(found));
}
