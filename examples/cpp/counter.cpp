// Counts in the number `x` of an image in a mapped file: opens the image, which checks it once, prepares a client, which verifies it
// once, and runs it three times in place. Then writes the image to the file: a segment is a copy, so the file is unchanged until then.
//
//   counter IMAGE CLIENT
#define LEZGAURI_MAPPED_FILE
#include <lezgauri.hpp>

#include <exception>
#include <iostream>
#include <string_view>

static int count(const char *image, const char *client)
{
    lezgauri::mapped_file file = lezgauri::map_file(image, lezgauri::file_access::read_write);
    lezgauri::segment segment = lezgauri::open(file.bytes());
    lezgauri::client increment = segment.prepare(lezgauri::map_file(client, lezgauri::file_access::read).bytes());
    for (int i = 0; i < 3; i++) {
        char output[64];
        const lezgauri::ran ran = increment(segment, {}, output);
        if (ran.is_full) {
            std::cerr << "run: more than " << sizeof output << " bytes\n";
            return 1;
        }
        std::cout << ran.report.steps << " steps: " << std::string_view(output, ran.written);
    }
    segment.save(file.room());
    file.sync();
    return 0;
}

int main(int argc, char **argv)
try {
    if (argc != 3) {
        std::cerr << "usage: counter IMAGE CLIENT\n";
        return 2;
    }
    return count(argv[1], argv[2]);
} catch (const std::exception &problem) {
    std::cerr << problem.what() << '\n';
    return 1;
}
