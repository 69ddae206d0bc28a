// first.cpp: what first.c does, in C++: a store that closes itself, and exceptions.
//
//     c++ first.cpp $(pkg-config --cflags --libs lapyrei) && ./a.out first.loop
#include <cstdint>
#include <cstdio>
#include <lapyrei.h>
#include <stdexcept>
#include <string>
#include <vector>

struct Refused : std::runtime_error {
    explicit Refused(int refusal)
        : std::runtime_error(std::string(lapyrei_name(refusal)) + ": " + lapyrei_text(refusal)), number(refusal), detail(lapyrei_detail()) {}
    int number;
    std::uint64_t detail;
};

inline void want(int refusal) {
    if (refusal) throw Refused(refusal);
}

class Store {
public:
    Store(const char *path, const lapyrei_shape &shape) {
        want(lapyrei_format(path, &shape, &it));
        measure();
    }
    explicit Store(const char *path) {
        want(lapyrei_open(path, &it));
        measure();
    }
    Store(const Store &) = delete;
    Store &operator=(const Store &) = delete;
    ~Store() { lapyrei_close(it); }

    std::size_t frame_bytes() const { return size; }
    std::uint64_t append(const lapyrei_head &head, const std::vector<std::uint8_t> &frame) {
        std::uint64_t number;
        want(lapyrei_append(it, &head, frame.data(), 1, frame.size(), &number));
        return number;
    }
    std::vector<std::uint8_t> read(std::uint64_t number, lapyrei_head &head) const {
        std::vector<std::uint8_t> frame(size);
        want(lapyrei_read(it, number, &head, frame.data(), frame.size()));
        return frame;
    }
    std::vector<lapyrei_run> frames_of(std::uint64_t since, std::uint64_t until) const {
        std::size_t count = 0;
        want(lapyrei_frames_of(it, since, until, nullptr, 0, &count));
        std::vector<lapyrei_run> runs(count);
        want(lapyrei_frames_of(it, since, until, runs.data(), runs.size(), &count));
        return runs;
    }
    std::uint32_t lock(std::uint64_t from, std::uint64_t to, std::uint64_t tag = 0) {
        std::uint32_t id;
        want(lapyrei_lock(it, from, to, tag, &id));
        return id;
    }

private:
    void measure() {
        lapyrei_shape shape;
        int refusal = lapyrei_shape_of(it, &shape, &size);
        if (refusal) {
            lapyrei_close(it);
            throw Refused(refusal);
        }
    }
    lapyrei it = 0;
    std::size_t size = 0;
};

int main(int argc, char **argv) {
    if (argc != 2) return 2;
    try {
        Store store(argv[1], {64, 48, LAPYREI_YM12, 25, 1, 3, 3, 0});
        std::uint64_t number = 0;
        for (std::uint32_t i = 0; i < 10; i++) {
            lapyrei_head head = {0, i * 40000u, i, 0};
            number = store.append(head, std::vector<std::uint8_t>(store.frame_bytes(), static_cast<std::uint8_t>(i)));
        }
        std::printf("stored 0..%llu\n", static_cast<unsigned long long>(number));
        for (const lapyrei_run &run : store.frames_of(80000, UINT64_MAX))
            std::printf("frames %llu..%llu\n", static_cast<unsigned long long>(run.from), static_cast<unsigned long long>(run.to));
        std::printf("clip %u: 8..9\n", store.lock(8, 9));
        lapyrei_head head;
        store.read(9, head);
        std::printf("frame %llu: %llu us\n", static_cast<unsigned long long>(head.number), static_cast<unsigned long long>(head.timestamp));
    } catch (const Refused &refused) {
        std::fprintf(stderr, "%s\n", refused.what());
        return 1;
    }
}
