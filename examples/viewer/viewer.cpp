// A viewer of text: scrolled by the wheel or by dragging, zoomed by the wheel with Control.
//
//     viewer [--check FRAMES] [--pictures FOLDER] [--font FILE --bold FILE] TEXT
//
// --check draws so many frames with small pages, and each of them again without a cache: all pixels are to be equal.
// --pictures draws some frames, and writes the last one and the page of the cache into FOLDER, as BMP.
// FILE is a font; without them it takes DejaVu, where Debian has it.
#include "painter.hpp"

#include <algorithm>
#include <fstream>
#include <string>

namespace {

constexpr int width = 720, height = 480;
constexpr double line_height = 1.4;

// What of the text is seen: its size in pixels, and what lies at the left upper corner, in units of that size.
struct view {
    std::uint32_t size;
    double left, top;
};

std::vector<line> read(const std::string &file, const fonts &with) {
    std::ifstream from(file);
    if (!from) fail(("can't read " + file).c_str());
    std::vector<line> lines;
    for (std::string text; std::getline(from, text);) {
        const bool is_title = text.rfind("# ", 0) == 0;
        lines.push_back(with.set(is_title ? text.substr(2) : text, is_title ? 1 : 0));
    }
    return lines;
}

// Calls `draw` with each glyph that is seen, and with the pixel of its pen.
template <class Draw>
void each_glyph(const std::vector<line> &lines, const view &at, Draw draw) {
    for (std::size_t number = 0; number < lines.size(); number++) {
        const int y = int(std::lround(((double(number) + 1) * line_height - at.top) * at.size));
        if (y < -int(at.size) || y > height + int(at.size)) continue;
        for (const standing &each : lines[number]) {
            const auto quarters = std::int64_t(std::floor((each.x - at.left) * at.size * 4));
            const int x = int(quarters >> 2);
            if (x < -2 * int(at.size) || x > width + int(at.size)) continue;
            draw(glyph{each.font, each.index, at.size, std::uint32_t(quarters & 3)}, x, y);
        }
    }
}

void clear(SDL_Renderer *renderer) {
    SDL_SetRenderDrawColor(renderer, 252, 250, 244, 255);
    SDL_RenderClear(renderer);
}

void draw_frame(SDL_Renderer *renderer, painter &with, const fonts &faces, const std::vector<line> &lines, const view &at) {
    clear(renderer);
    with.begin_frame();
    each_glyph(lines, at, [&](const glyph &each, int x, int y) { with.draw(each.key(), x, y, [&] { return faces.drawn(each); }); });
    with.end_frame();
}

void draw_without(SDL_Renderer *renderer, const fonts &faces, const std::vector<line> &lines, const view &at) {
    clear(renderer);
    each_glyph(lines, at, [&](const glyph &each, int x, int y) { draw_uncached(renderer, faces.drawn(each), x, y); });
}

painter made(SDL_Renderer *renderer, guillotiere::cache_options with) {
    with.padding = painter::border;
    auto cache = guillotiere::cache::make(with);
    if (!cache) fail(guillotiere::text(cache.error()));
    return painter(renderer, std::move(*cache));
}

using pixels = std::vector<std::uint32_t>;

pixels shown(SDL_Renderer *renderer, SDL_Texture *of) {
    const drawing_to target(renderer, of);
    int w = 0, h = 0;
    SDL_QueryTexture(of, nullptr, nullptr, &w, &h);
    pixels found(std::size_t(w) * h);
    if (SDL_RenderReadPixels(renderer, nullptr, SDL_PIXELFORMAT_ARGB8888, found.data(), w * 4) != 0) fail(SDL_GetError());
    return found;
}

// First it scrolls slowly; then the text is so large that no page takes a glyph; then the size goes up and down, with a leap now and
// then.
view in_frame(int frame, std::size_t lines) {
    const int part = frame % 100;
    const double all = double(lines) * line_height;
    if (part < 40) return {18, -1, std::fmod(frame * 0.13, all)};
    if (part < 48) return {200 + 30 * std::uint32_t(part - 40), part * 0.3, std::fmod(frame * 0.37, all)};
    const double size = 22 + 14 * std::sin(frame / 6 * 0.7);
    return {std::uint32_t(size), 3 * std::sin(frame * 0.05), std::fmod(frame * 0.21 + frame / 15 * 17.0, all)};
}

void tell(const happened &it) {
    std::printf("%d glyphs written, %d evicted, %d trimmed, %d moved, %d pages added, %d grown, %d full frames, %d drawn alone\n",
                it.written, it.evicted, it.trimmed, it.moved, it.added, it.grown, it.full_frames, it.alone);
}

// Whether all frames were right, and each thing happened that the painter has lines for.
bool check(SDL_Renderer *renderer, const fonts &faces, const std::vector<line> &lines, int frames) {
    painter cached = made(renderer, {{64, 64}, {256, 256}, 3, 0, guillotiere::default_options});
    const texture frame = empty_texture(renderer, width, height);
    const drawing_to target(renderer, frame.get());
    int same = 0;
    for (int number = 0; number < frames; number++) {
        const view at = in_frame(number, lines.size());
        draw_frame(renderer, cached, faces, lines, at);
        const pixels ours = shown(renderer, frame.get());
        draw_without(renderer, faces, lines, at);
        same += ours == shown(renderer, frame.get());
    }
    const happened &it = cached.so_far();
    SDL_RendererInfo by{};
    SDL_GetRendererInfo(renderer, &by);
    std::printf("%d of %d frames are pixel for pixel those without a cache, by SDL's renderer %s\n", same, frames, by.name);
    tell(it);
    const int each[] = {it.added, it.grown, it.written, it.evicted, it.trimmed, it.moved, it.full_frames, it.alone};
    return same == frames && std::all_of(std::begin(each), std::end(each), [](int count) { return count > 0; });
}

void save(SDL_Renderer *renderer, SDL_Texture *of, const std::string &file) {
    int w = 0, h = 0;
    SDL_QueryTexture(of, nullptr, nullptr, &w, &h);
    pixels found = shown(renderer, of);
    SDL_Surface *made = SDL_CreateRGBSurfaceWithFormatFrom(found.data(), w, h, 32, w * 4, SDL_PIXELFORMAT_ARGB8888);
    if (made == nullptr || SDL_SaveBMP(made, file.c_str()) != 0) fail(SDL_GetError());
    SDL_FreeSurface(made);
}

void write_pictures(SDL_Renderer *renderer, const fonts &faces, const std::vector<line> &lines, const std::string &folder) {
    constexpr int side = 256;
    painter cached = made(renderer, {{side, side}, {side, side}, 1, 0, guillotiere::default_options});
    const texture frame = empty_texture(renderer, width, height);
    {
        const drawing_to target(renderer, frame.get());
        for (int number = 0; number < 24; number++) draw_frame(renderer, cached, faces, lines, {14, -0.8, 56 + number * 0.25});
    }
    save(renderer, frame.get(), folder + "/viewer.bmp");
    const texture page = empty_texture(renderer, side, side);
    {
        const drawing_to target(renderer, page.get());
        clear(renderer);
        SDL_RenderCopy(renderer, cached.page(0), nullptr, nullptr);
    }
    save(renderer, page.get(), folder + "/viewer_page.bmp");
}

// The view after an event; whether the program goes on.
bool follow(const SDL_Event &event, view &at) {
    if (event.type == SDL_QUIT) return false;
    if (event.type == SDL_MOUSEWHEEL && (SDL_GetModState() & KMOD_CTRL) != 0) {
        const double before = at.size;
        at.size = std::uint32_t(std::clamp(before + event.wheel.y * std::max(1.0, before / 8), 4.0, 400.0));
        int x = 0, y = 0;
        SDL_GetMouseState(&x, &y); // what is under the pointer stays there
        at.left += x / before - x / double(at.size);
        at.top += y / before - y / double(at.size);
    } else if (event.type == SDL_MOUSEWHEEL) {
        at.top -= 3 * line_height * event.wheel.y;
    } else if (event.type == SDL_MOUSEMOTION && (event.motion.state & SDL_BUTTON_LMASK) != 0) {
        at.left -= event.motion.xrel / double(at.size);
        at.top -= event.motion.yrel / double(at.size);
    }
    return true;
}

void show(SDL_Renderer *renderer, const fonts &faces, const std::vector<line> &lines) {
    painter cached = made(renderer, {{512, 512}, {2048, 2048}, 4, 0, guillotiere::default_options});
    view at{18, -1, 0};
    for (bool goes_on = true; goes_on;) {
        draw_frame(renderer, cached, faces, lines, at);
        SDL_RenderPresent(renderer);
        SDL_Event event;
        goes_on = SDL_WaitEvent(&event) != 0 && follow(event, at);
        while (goes_on && SDL_PollEvent(&event) != 0) goes_on = follow(event, at);
    }
    tell(cached.so_far());
}

} // namespace

int main(int count, char **words) {
    std::string text, folder, font = "/usr/share/fonts/truetype/dejavu/DejaVuSans.ttf",
                              bold = "/usr/share/fonts/truetype/dejavu/DejaVuSans-Bold.ttf";
    int frames = 0;
    for (int i = 1; i < count; i++) {
        const std::string word = words[i];
        if (word.rfind("--", 0) != 0) text = word;
        else if (i + 1 == count) fail((word + ": what?").c_str());
        else if (word == "--check") frames = std::atoi(words[++i]);
        else if (word == "--pictures") folder = words[++i];
        else if (word == "--font") font = words[++i];
        else if (word == "--bold") bold = words[++i];
        else fail(("what is " + word + "?").c_str());
    }
    if (text.empty()) fail("it takes [--check FRAMES] [--pictures FOLDER] [--font FILE --bold FILE] TEXT");
    const fonts faces({font, bold});
    const auto lines = read(text, faces);
    if (SDL_Init(SDL_INIT_VIDEO) != 0) fail(SDL_GetError());
    const Uint32 flags = frames > 0 || !folder.empty() ? SDL_WINDOW_HIDDEN : 0;
    SDL_Window *window = SDL_CreateWindow("viewer", SDL_WINDOWPOS_UNDEFINED, SDL_WINDOWPOS_UNDEFINED, width, height, flags);
    SDL_Renderer *renderer = window == nullptr ? nullptr : SDL_CreateRenderer(window, -1, SDL_RENDERER_TARGETTEXTURE);
    if (renderer == nullptr) fail(SDL_GetError());
    bool is_right = true;
    if (frames > 0) is_right = check(renderer, faces, lines, frames);
    else if (!folder.empty()) write_pictures(renderer, faces, lines, folder);
    else show(renderer, faces, lines);
    SDL_DestroyRenderer(renderer);
    SDL_DestroyWindow(window);
    SDL_Quit();
    return is_right ? 0 : 1;
}
