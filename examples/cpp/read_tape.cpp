// Reads a tape to its mark. Build it with the library in out/library:
//
//     c++ -Iout/library examples/cpp/read_tape.cpp -Lout/library -Wl,-rpath,$PWD/out/library -lexcp -o out/read_tape
#include "excp.h"
#include "excp_blocks.h"

#include <cstdio>
#include <stdexcept>
#include <string>
#include <vector>

static void check(excp_status status) { if (status != EXCP_OK) throw std::runtime_error(excp_message(status)); }

// A site that is freed at the end of its scope.
struct Site {
    excp_site handle = EXCP_SITE_INIT;
    Site() { check(excp_site_new(&handle, 1, 1)); }
    ~Site() { excp_site_free(&handle); }
    Site(const Site &) = delete;
    Site &operator=(const Site &) = delete;
};

// Reads the next block of at most 16 bytes into the storage. Returns its post.
static excp_post read_block(Site &site, uint16_t unit, std::vector<uint8_t> &storage) {
    excp_iob iob = {};
    iob.ecb = 0x1028, iob.start = 0x1030, iob.dcb = 1, iob.flags = EXCP_IOB_UNRELATED;
    storage.assign(0x48, 0);
    excp_store_iob(storage.data(), &iob);
    excp_store_ccw(&storage[0x30], EXCP_OP_RDF, 0x1038, EXCP_FLAG_SLI, 16);
    uint64_t number; excp_served served; excp_post post;
    check(excp_issue(&site.handle, 0, unit, 1, 0x1000, 0x1000, storage.data(), storage.size(), &number));
    check(excp_serve(&site.handle, unit, UINT32_MAX, &served));
    check(excp_next_post(&site.handle, 0, &post, storage.data(), storage.size()));
    return post;
}

int main() try {
    Site site;
    const excp_room room = { 1, 1 };
    uint16_t unit, dcb;
    for (const std::string block : { "FIRST", "SECOND BLOCK" })
        check(excp_put_block(&site.handle, reinterpret_cast<const uint8_t *>(block.data()), block.size()));
    check(excp_put_tape_mark(&site.handle));
    check(excp_mount_tape(&site.handle, 1024, &room, &unit));
    check(excp_open(&site.handle, unit, EXCP_INPUT, nullptr, 0, &dcb));
    std::vector<uint8_t> storage;
    excp_post post;
    while ((post = read_block(site, unit, storage)).code == EXCP_CODE_ENDED)
        std::printf("%04X %.*s\n", post.residual, 16 - post.residual, reinterpret_cast<const char *>(&storage[0x38]));
    std::printf("code %02X, unit status %02X\n", post.code, post.unit_status);
} catch (const std::exception &error) {
    std::fprintf(stderr, "read_tape: %s\n", error.what());
    return 1;
}
