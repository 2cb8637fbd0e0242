// A sheet of sprites that are known beforehand: into the smallest square that is found, with a pixel between them.
#include <guillotiere.hpp>

#include <cstdio>

int main() {
    std::vector<guillotiere::size> sprites;
    for (int i = 0; i < 100; i++) sprites.push_back({5 + 7 * i % 31, 4 + 11 * i % 23});

    auto with = guillotiere::sheet_options::of_squares(1, 4096);
    with.padding = 1;
    with.effort = 2000;
    auto answer = guillotiere::pack(sprites, with);
    if (!answer) {
        std::fprintf(stderr, "status %u\n", unsigned(answer.error()));
        return 1;
    }
    if (!*answer) {
        std::fprintf(stderr, "no room\n");
        return 1;
    }

    const guillotiere::sheet &sheet = **answer;
    for (std::size_t i = 0; i < sprites.size(); i++) {
        const auto &area = sheet.places[i].area;
        std::printf("sprite %zu at %d %d\n", i, int(area.min_x), int(area.min_y));
    }
    std::printf("%zu sprites in %d x %d\n", sheet.places.size(), int(sheet.size.width), int(sheet.size.height));
    return 0;
}
