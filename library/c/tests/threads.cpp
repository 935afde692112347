// Calls from many threads at the same time, from C++, by the shared library.
//
// usage: threads FIRST SECOND, two accepted files
//
// Each thread makes each call, with results of its own, and compares them with those that one thread
// got before. A thread with the least stack merges both files.
#include "checks.h"
#include <pthread.h>
#include <thread>
#include <vector>

namespace {

constexpr int THREADS = 8, TIMES = 20;
// The least stack of a thread, which Linux on aarch64 wants to be larger.
#ifdef __aarch64__
constexpr size_t STACK = 128 << 10;
#else
constexpr size_t STACK = 16 << 10;
#endif
// The records of a type stream begin behind its header.
constexpr size_t HEADER = 56;

// What a call answered: its number, and the bytes that it wrote.
struct Answer {
    uint32_t number = 0;
    std::vector<uint8_t> bytes;

    bool operator==(const Answer &other) const { return number == other.number && bytes == other.bytes; }
};

template <typename Item> Answer answer_of(uint32_t number, const std::vector<Item> &items, uint64_t count) {
    const auto *front = reinterpret_cast<const uint8_t *>(items.data());
    return {number, {front, front + count * sizeof(Item)}};
}

template <typename Item> Answer answer_of(uint32_t number, const Item &item) {
    return answer_of(number, std::vector<Item>{item}, 1);
}

// What a call merges: with the GUID of the settings, or with that of the types.
Answer merged_by(decltype(pdbmerge_merge) *call, const pdbmerge_slice *files, size_t count) {
    const pdbmerge_settings settings = settings_of(4096);
    std::vector<uint8_t> out(1 << 20);
    pdbmerge_report report;
    pdbmerge_fault fault;
    const uint32_t number = call(files, count, &settings, out.data(), out.size(), &report, &fault);
    return answer_of(number, out, number == PDBMERGE_OK ? report.length : 0);
}

Answer merged(const pdbmerge_slice *files, size_t count) { return merged_by(pdbmerge_merge, files, count); }

Answer guid_of(const pdbmerge_slice *files, size_t count) {
    const pdbmerge_seed seed{};
    pdbmerge_guid guid{};
    pdbmerge_fault fault;
    const uint32_t number = pdbmerge_guid_of_types(files, count, &seed, &guid, &fault);
    return answer_of(number, guid);
}

Answer mapped(const pdbmerge_slice *files, size_t count) {
    const pdbmerge_settings settings = settings_of(4096);
    std::vector<uint8_t> out(1 << 20);
    std::vector<uint32_t> indices(1 << 16), counts(count);
    pdbmerge_report report;
    pdbmerge_fault fault;
    uint64_t total = 0;
    const uint32_t number =
        pdbmerge_merge_map(files, count, &settings, out.data(), out.size(), indices.data(), indices.size(),
                           counts.data(), counts.size(), &report, &total, &fault);
    return answer_of(number, indices, number == PDBMERGE_OK ? total : 0);
}

// The first file, and one of no bytes, which is left out.
Answer planned(const pdbmerge_slice *files) {
    const pdbmerge_slice given[2] = {files[0], {nullptr, 0}};
    const pdbmerge_plan plan = {settings_of(4096), PDBMERGE_GUID_OF_TYPES, PDBMERGE_SKIP, PDBMERGE_NO_MAPS};
    std::vector<uint8_t> out(1 << 20);
    pdbmerge_left_out left_out[2];
    pdbmerge_totals totals{};
    pdbmerge_report report;
    pdbmerge_fault fault;
    const uint32_t number = pdbmerge_merge_plan(given, 2, &plan, out.data(), out.size(), nullptr, 0, nullptr, 0,
                                                left_out, 2, &report, &totals, &fault);
    return answer_of(number, out, number == PDBMERGE_OK ? report.length : 0);
}

Answer identified(pdbmerge_slice file) {
    pdbmerge_identity identity{};
    pdbmerge_fault fault;
    const uint32_t number = pdbmerge_identify(file.bytes, file.length, &identity, &fault);
    return answer_of(number, identity);
}

Answer checked(pdbmerge_slice file) {
    pdbmerge_counts counts{};
    pdbmerge_fault fault;
    const uint32_t number = pdbmerge_check(file.bytes, file.length, &counts, &fault);
    return answer_of(number, counts);
}

Answer layout_of(pdbmerge_slice file) {
    std::vector<uint32_t> sizes(1 << 16);
    pdbmerge_container container{};
    pdbmerge_fault fault;
    const uint32_t number =
        pdbmerge_layout(file.bytes, file.length, &container, sizes.data(), sizes.size(), &fault);
    return answer_of(number, sizes, container.streams);
}

Answer stream_of(pdbmerge_slice file, uint32_t stream) {
    std::vector<uint8_t> out(1 << 20);
    uint64_t size = 0;
    pdbmerge_fault fault;
    const uint32_t number =
        pdbmerge_stream(file.bytes, file.length, stream, out.data(), out.size(), &size, &fault);
    return answer_of(number, out, size);
}

// What a call lists of a file or of a stream.
template <typename Item>
Answer list_of(uint32_t (*call)(const uint8_t *, size_t, Item *, size_t, uint64_t *, pdbmerge_fault *),
               pdbmerge_slice bytes) {
    std::vector<Item> items(1 << 16);
    uint64_t count = 0;
    pdbmerge_fault fault;
    const uint32_t number = call(bytes.bytes, bytes.length, items.data(), items.size(), &count, &fault);
    return answer_of(number, items, count);
}

Answer record_of(const std::vector<uint8_t> &stream) {
    uint64_t offset = 0;
    pdbmerge_fault fault;
    const uint32_t number = pdbmerge_record(stream.data(), stream.size(), 0x1001, &offset, &fault);
    return answer_of(number, offset);
}

Answer references_of(const std::vector<uint8_t> &stream) {
    std::vector<pdbmerge_reference> references(1 << 14);
    uint64_t count = 0;
    pdbmerge_fault fault;
    const uint32_t number = pdbmerge_references(stream.data() + HEADER, stream.size() - HEADER, 0x1000,
                                                references.data(), references.size(), &count, &fault);
    return answer_of(number, references, count);
}

// What all records name, and how much each of them names.
std::vector<Answer> all_references_of(const std::vector<uint8_t> &stream) {
    std::vector<pdbmerge_reference> references(1 << 16);
    std::vector<uint32_t> counts(1 << 16);
    uint64_t total = 0, records = 0;
    pdbmerge_fault fault;
    const uint32_t number =
        pdbmerge_all_references(stream.data(), stream.size(), references.data(), references.size(),
                                counts.data(), counts.size(), &total, &records, &fault);
    return {answer_of(number, references, total), answer_of(number, counts, records)};
}

Answer name_of(const std::vector<uint8_t> &stream) {
    std::vector<uint8_t> out(1 << 16);
    uint64_t size = 0;
    pdbmerge_fault fault;
    const uint32_t number = pdbmerge_name(stream.data() + HEADER, stream.size() - HEADER, 0x1000,
                                          out.data(), out.size(), &size, &fault);
    return answer_of(number, out, size == PDBMERGE_NO_NAME ? 0 : size);
}

Answer difference_of(const pdbmerge_slice *files) {
    std::vector<pdbmerge_difference> differences(1 << 16);
    const pdbmerge_seed seed{};
    uint64_t count = 0;
    pdbmerge_fault fault;
    const uint32_t number = pdbmerge_diff(files[0].bytes, files[0].length, files[1].bytes, files[1].length, &seed,
                                          differences.data(), differences.size(), &count, &fault);
    return answer_of(number, differences, count);
}

// The answers of each call.
std::vector<Answer> all_answers(const pdbmerge_slice *files) {
    const std::vector<uint8_t> first = stream_of(files[0], 1).bytes, stream = stream_of(files[0], 2).bytes;
    const pdbmerge_slice info{first.data(), first.size()}, types{stream.data(), stream.size()};
    const std::vector<Answer> all = all_references_of(stream);
    return {identified(files[0]),
            layout_of(files[0]),
            list_of(pdbmerge_blocks, files[0]),
            checked(files[0]),
            merged(files, 2),
            mapped(files, 2),
            merged_by(pdbmerge_merge_by_types, files, 2),
            planned(files),
            guid_of(files, 2),
            stream_of(files[0], 2),
            list_of(pdbmerge_named_streams, info),
            list_of(pdbmerge_stream_names, info),
            list_of(pdbmerge_features, info),
            list_of(pdbmerge_records, types),
            record_of(stream),
            references_of(stream),
            all[0],
            all[1],
            name_of(stream),
            difference_of(files)};
}

// Eight threads, and what each of them found wrong.
void hold_threads(const pdbmerge_slice *files) {
    const std::vector<Answer> right = all_answers(files);
    for (const Answer &answer : right)
        hold("an answer of one thread", answer.number, PDBMERGE_OK);
    std::vector<uint64_t> differ(THREADS);
    std::vector<std::thread> threads;
    for (uint64_t &count : differ)
        threads.emplace_back([&right, &count, files] {
            for (int time = 0; time < TIMES; time++)
                count += all_answers(files) != right;
        });
    for (std::thread &thread : threads)
        thread.join();
    for (uint64_t count : differ)
        hold("answers of a thread that differ", count, 0);
}

// The data of an empty vector may be NULL.
void hold_empty() {
    const std::vector<uint8_t> empty;
    const std::vector<pdbmerge_slice> none;
    hold("check of an empty vector", checked({empty.data(), empty.size()}).number, 1);
    hold("merge of an empty vector of files", merged(none.data(), none.size()).number, PDBMERGE_OK);
    hold("maps of an empty vector of files", mapped(none.data(), none.size()).number, PDBMERGE_OK);
}

// What a thread with a small stack merges, and into what.
struct SmallMerge {
    const pdbmerge_slice *files;
    std::vector<uint8_t> out;
    uint32_t number;
    uint64_t length;
};

void *merge_in_thread(void *given) {
    auto *merge = static_cast<SmallMerge *>(given);
    const pdbmerge_settings settings = settings_of(4096);
    pdbmerge_report report;
    pdbmerge_fault fault;
    merge->number =
        pdbmerge_merge(merge->files, 2, &settings, merge->out.data(), merge->out.size(), &report, &fault);
    merge->length = report.length;
    return nullptr;
}

void hold_small_stack(const pdbmerge_slice *files) {
    SmallMerge merge{files, std::vector<uint8_t>(1 << 20), 1, 0};
    pthread_attr_t attributes;
    pthread_t thread;
    pthread_attr_init(&attributes);
    hold("a small stack", static_cast<uint64_t>(pthread_attr_setstacksize(&attributes, STACK)), 0);
    hold("a thread with that stack",
         static_cast<uint64_t>(pthread_create(&thread, &attributes, merge_in_thread, &merge)), 0);
    pthread_join(thread, nullptr);
    pthread_attr_destroy(&attributes);
    hold("merge with a small stack", merge.number, PDBMERGE_OK);
    if (merge.number == PDBMERGE_OK)
        hold("the same bytes with a small stack", answer_of(0, merge.out, merge.length) == merged(files, 2), 1);
}

} // namespace

int main(int argc, char **argv) {
    if (argc != 3)
        return 2;
    const pdbmerge_slice files[2] = {read_file(argv[1]), read_file(argv[2])};
    hold("version of the library", pdbmerge_version(), PDBMERGE_VERSION);
    hold_threads(files);
    hold_empty();
    hold_small_stack(files);
    return finish("threads");
}
