// Runs a client with a cache in an image on two inputs, one after the other: the second run finds what the first one entered.
// Then runs it with room for only a few bytes of output.
//
//   cache IMAGE CLIENT
#include <lezgauri.h>

#include <cstdint>
#include <exception>
#include <fstream>
#include <iostream>
#include <iterator>
#include <stdexcept>
#include <string>
#include <utility>
#include <vector>

using Bytes = std::vector<std::uint8_t>;

static Bytes read_file(const char *name)
{
    std::ifstream file(name, std::ios::binary);
    if (!file) {
        throw std::runtime_error(std::string(name) + ": can't be read");
    }
    return Bytes(std::istreambuf_iterator<char>(file), {});
}

// An image in memory, on which clients run.
class Segment {
public:
    // Takes a sound image. Throws the first fault of any other.
    explicit Segment(Bytes image) : image_(std::move(image))
    {
        lezgauri_fault fault;
        if (lezgauri_check(image_.data(), image_.size(), &fault) != LEZGAURI_OK) {
            throw std::runtime_error("no image: fault " + std::to_string(fault.number));
        }
    }

    // Runs a client on an input. Returns at most `room` bytes of its output, and whether there was more. The saved image replaces
    // the image.
    std::pair<std::string, bool> run(const Bytes &client, const std::string &input, std::size_t room)
    {
        const lezgauri_bytes clients[] = {{client.data(), client.size()}};
        std::string output(room, '\0');
        std::size_t written = 0;
        Bytes saved(image_.size());
        lezgauri_fault fault;
        const std::uint32_t status =
            lezgauri_run(image_.data(), image_.size(), clients, 1, input.data(), input.size(), &output[0], output.size(),
                         &written, saved.data(), nullptr, &fault);
        if (status != LEZGAURI_OK && status != LEZGAURI_OUTPUT_FULL) {
            throw std::runtime_error("not run: fault " + std::to_string(fault.number));
        }
        image_ = std::move(saved);
        output.resize(written);
        return {std::move(output), status == LEZGAURI_OUTPUT_FULL};
    }

private:
    Bytes image_;
};

int main(int argc, char **argv)
try {
    if (argc != 3) {
        std::cerr << "usage: cache IMAGE CLIENT\n";
        return 2;
    }
    Segment segment(read_file(argv[1]));
    const Bytes client = read_file(argv[2]);
    std::cout << segment.run(client, "AB", 1024).first;
    std::cout << "-- again\n" << segment.run(client, "BC", 1024).first;
    const auto cut = segment.run(client, "A", 6);
    std::cout << "-- " << cut.first << (cut.second ? ".. and more" : "") << '\n';
    return 0;
} catch (const std::exception &problem) {
    std::cerr << problem.what() << '\n';
    return 1;
}
