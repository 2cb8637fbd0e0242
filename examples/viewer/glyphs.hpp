// Glyphs of fonts as pixels, by FreeType, and the lines of a text as glyphs.
#pragma once

#include <ft2build.h>
#include FT_FREETYPE_H
#include FT_OUTLINE_H

#include <cmath>
#include <cstdint>
#include <cstdio>
#include <cstdlib>
#include <string>
#include <vector>

[[noreturn]] inline void fail(const char *what) {
    std::fprintf(stderr, "viewer: %s\n", what);
    std::exit(2);
}

// A glyph as it is drawn: each size, and each quarter of a pixel that it is moved to the right, has pixels of its own.
struct glyph {
    std::uint32_t font;
    std::uint32_t index; // in the font
    std::uint32_t size;  // in pixels
    std::uint32_t quarter;

    // All of it in a number: the key under which its pixels are kept.
    std::uint64_t key() const {
        return std::uint64_t{index} | std::uint64_t{size} << 32 | std::uint64_t{quarter} << 48 | std::uint64_t{font} << 50;
    }
};

// Its pixels: how much of each is covered. `left` and `top` are from the pen to the right and upwards.
struct bitmap {
    std::int32_t left, top, width, height;
    std::vector<std::uint8_t> coverage;
};

// A glyph of a line, and where it stands there, in units of the text's size.
struct standing {
    std::uint32_t font, index;
    double x;
};

using line = std::vector<standing>;

class fonts {
public:
    explicit fonts(const std::vector<std::string> &files) {
        if (FT_Init_FreeType(&library_) != 0) fail("FreeType doesn't start");
        for (const auto &file : files) {
            FT_Face face;
            if (FT_New_Face(library_, file.c_str(), 0, &face) != 0) fail(("can't read the font " + file).c_str());
            faces_.push_back(face);
        }
    }
    ~fonts() { FT_Done_FreeType(library_); }
    fonts(const fonts &) = delete;
    fonts &operator=(const fonts &) = delete;

    bitmap drawn(const glyph &of) const {
        const FT_Face face = faces_[of.font];
        FT_Set_Pixel_Sizes(face, 0, of.size);
        if (FT_Load_Glyph(face, of.index, FT_LOAD_NO_HINTING | FT_LOAD_NO_BITMAP) != 0) return {};
        FT_Outline_Translate(&face->glyph->outline, FT_Pos{of.quarter} * 16, 0);
        if (FT_Render_Glyph(face->glyph, FT_RENDER_MODE_NORMAL) != 0) return {};
        const FT_Bitmap &from = face->glyph->bitmap;
        bitmap made{face->glyph->bitmap_left, face->glyph->bitmap_top, std::int32_t(from.width), std::int32_t(from.rows), {}};
        for (unsigned y = 0; y < from.rows; y++) {
            const std::uint8_t *row = from.buffer + std::ptrdiff_t(y) * from.pitch;
            made.coverage.insert(made.coverage.end(), row, row + from.width);
        }
        return made;
    }

    // The glyphs of a line of UTF-8, also blank ones, as those of spaces.
    line set(const std::string &text, std::uint32_t font) const {
        const FT_Face face = faces_[font];
        line made;
        double x = 0;
        for (std::size_t at = 0; at < text.size();) {
            const auto index = FT_Get_Char_Index(face, next_character(text, at));
            if (FT_Load_Glyph(face, index, FT_LOAD_NO_SCALE) != 0) continue;
            made.push_back({font, index, x});
            x += double(face->glyph->metrics.horiAdvance) / face->units_per_EM;
        }
        return made;
    }

private:
    static std::uint32_t next_character(const std::string &text, std::size_t &at) {
        const auto first = static_cast<unsigned char>(text[at++]);
        const int more = first >= 0xf0 ? 3 : first >= 0xe0 ? 2 : first >= 0xc0 ? 1 : 0;
        std::uint32_t made = more == 0 ? first : first & (0x3f >> more);
        for (int i = 0; i < more && at < text.size(); i++) made = made << 6 | (static_cast<unsigned char>(text[at++]) & 0x3f);
        return made;
    }

    FT_Library library_;
    std::vector<FT_Face> faces_;
};
