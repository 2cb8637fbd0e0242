// Draws glyphs through a guillotiere::cache, whose pages are textures of SDL's renderer: what a renderer of text does
// with a cache. Another renderer has other textures; the calls of the cache, and their order, are the same.
#pragma once

#include "glyphs.hpp"

#include <SDL.h>
#include <guillotiere.hpp>

#include <memory>
#include <utility>

struct no_texture {
    void operator()(SDL_Texture *texture) const { SDL_DestroyTexture(texture); }
};
using texture = std::unique_ptr<SDL_Texture, no_texture>;

// What is drawn goes to a texture, as long as this lives.
class drawing_to {
public:
    drawing_to(SDL_Renderer *renderer, SDL_Texture *to) : renderer_(renderer), before_(SDL_GetRenderTarget(renderer)) {
        SDL_SetRenderTarget(renderer, to);
    }
    ~drawing_to() { SDL_SetRenderTarget(renderer_, before_); }
    drawing_to(const drawing_to &) = delete;
    drawing_to &operator=(const drawing_to &) = delete;

private:
    SDL_Renderer *renderer_;
    SDL_Texture *before_;
};

inline texture empty_texture(SDL_Renderer *renderer, int width, int height) {
    texture made(SDL_CreateTexture(renderer, SDL_PIXELFORMAT_ARGB8888, SDL_TEXTUREACCESS_TARGET, width, height));
    if (!made) fail(SDL_GetError());
    SDL_SetTextureBlendMode(made.get(), SDL_BLENDMODE_BLEND);
    const drawing_to target(renderer, made.get());
    SDL_SetRenderDrawColor(renderer, 0, 0, 0, 0);
    SDL_RenderClear(renderer);
    return made;
}

// Copies pixels as they are, without mixing them with what lies there.
inline void copy(SDL_Renderer *renderer, SDL_Texture *from, const SDL_Rect &area, SDL_Texture *to, const SDL_Rect &place) {
    SDL_SetTextureBlendMode(from, SDL_BLENDMODE_NONE);
    const drawing_to target(renderer, to);
    SDL_RenderCopy(renderer, from, &area, &place);
    SDL_SetTextureBlendMode(from, SDL_BLENDMODE_BLEND);
}

inline SDL_Rect area_of(const guillotiere::rectangle &of) {
    return {of.min_x, of.min_y, of.max_x - of.min_x, of.max_y - of.min_y};
}

// The pixels of a glyph in a rectangle of this size, `x` and `y` behind its corner, and cleared ones around them.
inline std::vector<std::uint32_t> pixels_of(const bitmap &from, int width, int height, int x, int y) {
    const std::uint32_t ink = 0x101820;
    std::vector<std::uint32_t> made(std::size_t(width) * height, ink);
    for (int row = 0; row < from.height; row++)
        for (int column = 0; column < from.width; column++)
            made[std::size_t(y + row) * width + x + column] |= std::uint32_t{from.coverage[row * from.width + column]} << 24;
    return made;
}

// Draws a glyph with its pen at this pixel, from a texture of its own.
inline void draw_uncached(SDL_Renderer *renderer, const bitmap &pixels, int x, int y) {
    if (pixels.width == 0 || pixels.height == 0) return;
    const texture made = empty_texture(renderer, pixels.width, pixels.height);
    const auto words = pixels_of(pixels, pixels.width, pixels.height, 0, 0);
    SDL_UpdateTexture(made.get(), nullptr, words.data(), pixels.width * int(sizeof words[0]));
    const SDL_Rect to{x + pixels.left, y - pixels.top, pixels.width, pixels.height};
    SDL_RenderCopy(renderer, made.get(), nullptr, &to);
}

// What happened, for those who want to know.
struct happened {
    int added, grown, written, evicted, moved, full_frames, alone, trimmed;
};

class painter {
public:
    // A border of one pixel lies around each glyph. Quads lie on whole pixels and aren't scaled: here one takes all of the border, so
    // that whatever is left there would be seen. Where a filter mixes pixels, let a quad pass `inner` by half a pixel at most.
    static constexpr int border = 1;

    painter(SDL_Renderer *renderer, guillotiere::cache cache) : renderer_(renderer), cache_(std::move(cache)) {}

    void begin_frame() { require(cache_.begin_frame()); }

    // Draws a glyph with its pen at this pixel; its pixels are asked for only if they aren't on a page.
    template <class Drawn>
    void draw(std::uint64_t key, int x, int y, Drawn drawn) {
        if (auto place = cache_.get(key))
            add_quad(*place, x, y);
        else
            draw_new(key, x, y, drawn());
    }

    // Draws what is batched. Then, between two frames, it brings room together and makes some where that is due.
    void end_frame() {
        flush();
        if (cache_.statistics().evictions > evictions_) repack_loose_pages();
        if (++frame_ % 30 == 0) {
            const auto before = cache_.len();
            require(cache_.trim(30)); // what wasn't drawn for so many frames
            happened_.trimmed += int(before - cache_.len());
            follow();
        }
        evictions_ = cache_.statistics().evictions;
    }

    const happened &so_far() const { return happened_; }
    SDL_Texture *page(std::size_t number) const { return pages_[number].get(); }
    std::size_t pages() const { return pages_.size(); }

private:
    // What is kept of an entry, at its number.
    struct kept {
        std::int32_t left, top;
    };

    struct quad {
        std::uint32_t page;
        SDL_Rect from, to;
    };

    static void require(guillotiere::status answer) {
        if (answer != guillotiere::status::done) fail(guillotiere::text(answer));
    }

    void draw_new(std::uint64_t key, int x, int y, const bitmap &pixels) {
        for (;;) {
            const auto answer = cache_.insert(key, {pixels.width, pixels.height});
            follow(); // also after an error, and before the place or its number is noted
            if (!answer) fail(guillotiere::text(answer.error()));
            switch (answer->answer) {
            case guillotiere::insertion::fresh:
                keep(*answer->at, pixels);
                add_quad(*answer->at, x, y);
                return;
            case guillotiere::insertion::held: // its pixels are there already
                add_quad(*answer->at, x, y);
                return;
            case guillotiere::insertion::frame_full:
                // Each glyph on the pages is in the batch: once that is drawn, any of them may go.
                happened_.full_frames++;
                flush();
                begin_frame();
                break;
            case guillotiere::insertion::never_fits:
                draw_alone(pixels, x, y);
                return;
            }
        }
    }

    // Of a blank glyph, as that of a space, there is nothing to write and nothing to draw, and no border either.
    static bool is_blank(const guillotiere::place &place) { return place.inner.max_x == place.inner.min_x; }

    // Writes a new entry: its pixels, and cleared ones around them, since what lay there before is still in the page.
    void keep(const guillotiere::place &place, const bitmap &pixels) {
        if (is_blank(place)) return;
        if (place.number >= kept_.size()) kept_.resize(cache_.numbers());
        kept_[place.number] = {pixels.left, pixels.top};
        const SDL_Rect all = area_of(place.rectangle);
        const auto made = pixels_of(pixels, all.w, all.h, place.inner.min_x - all.x, place.inner.min_y - all.y);
        SDL_UpdateTexture(page(place.page), &all, made.data(), all.w * int(sizeof made[0]));
        happened_.written++;
    }

    // Quads name a page by its number and texels by pixels, so that a page may grow before they are drawn.
    void add_quad(const guillotiere::place &place, int x, int y) {
        if (is_blank(place)) return;
        const SDL_Rect inner = area_of(place.inner);
        const SDL_Rect from{inner.x - border, inner.y - border, inner.w + 2 * border, inner.h + 2 * border};
        const kept &it = kept_[place.number];
        batch_.push_back({place.page, from, {x + it.left - border, y - it.top - border, from.w, from.h}});
    }

    void flush() {
        for (const quad &each : batch_) SDL_RenderCopy(renderer_, page(each.page), &each.from, &each.to);
        batch_.clear();
    }

    // A glyph that no page could hold, after those that were drawn before it.
    void draw_alone(const bitmap &pixels, int x, int y) {
        flush();
        draw_uncached(renderer_, pixels, x, y);
        happened_.alone++;
    }

    // Does to the textures what the cache did to its pages. `before` is a copy of a page that is repacked.
    void follow(SDL_Texture *before = nullptr) {
        while (const auto change = cache_.next_change()) {
            switch (change->kind) {
            case guillotiere::change_kind::page_added:
                pages_.push_back(empty_texture(renderer_, change->size.width, change->size.height));
                happened_.added++;
                break;
            case guillotiere::change_kind::page_grown:
                grow(change->page, change->size);
                happened_.grown++;
                break;
            case guillotiere::change_kind::evicted: // its number is given again, and then what is kept there is written over
                happened_.evicted++;
                break;
            case guillotiere::change_kind::moved:
                copy(renderer_, before, area_of(change->from.rectangle), page(change->to.page), area_of(change->to.rectangle));
                happened_.moved++;
                break;
            case guillotiere::change_kind::page_removed:
                pages_.pop_back();
                break;
            }
        }
    }

    // Nothing on a page moves when it grows.
    void grow(std::uint32_t number, guillotiere::size to) {
        texture made = empty_texture(renderer_, to.width, to.height);
        const SDL_Rect all = whole(page(number));
        copy(renderer_, page(number), all, made.get(), all);
        pages_[number] = std::move(made);
    }

    static SDL_Rect whole(SDL_Texture *of) {
        SDL_Rect all{};
        SDL_QueryTexture(of, nullptr, nullptr, &all.w, &all.h);
        return all;
    }

    // Where glyphs made way in a frame, what is free lies in pieces that were too small: pages with much of it are packed anew.
    void repack_loose_pages() {
        for (std::uint32_t page = 0; page < cache_.page_count(); page++) {
            const auto areas = *cache_.areas(page);
            if (areas.free > areas.allocated / 6) repack(page);
        }
    }

    // No quad may wait here: it would show what its glyph moved away from.
    void repack(std::uint32_t number) {
        const SDL_Rect all = whole(page(number));
        const texture before = empty_texture(renderer_, all.w, all.h);
        copy(renderer_, page(number), all, before.get(), all);
        const auto answer = cache_.repack(number);
        if (answer == guillotiere::status::memory) return; // then all is as it was
        require(answer);
        follow(before.get());
    }

    SDL_Renderer *renderer_;
    guillotiere::cache cache_;
    std::vector<texture> pages_;
    std::vector<kept> kept_;
    std::vector<quad> batch_;
    std::uint64_t evictions_ = 0;
    int frame_ = 0;
    happened happened_{};
};
