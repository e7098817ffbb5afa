// fairexec_notes.hpp: what becomes of the notes of an actor of a house, for fairexec_actor.hpp, which includes it.
#ifndef FAIREXEC_NOTES_HPP
#define FAIREXEC_NOTES_HPP

#include "fairexec.h"
#include <algorithm>
#include <cstddef>
#include <functional>
#include <string>
#include <utility>

namespace fairexec::linked {

// How notes are passed on and copied: as text, some 40 bytes and 250 ns a note, or as parts of a journal in bytes, some 16 bytes and a fifth of that time.
enum class form { text, bytes };

// The notes of an actor of a house: what becomes of them.
class noted {
    // Notes are counted behind so many calls, and go on once there is a piece of them. Whoever takes them is handed so many at a time, if there are more.
    static constexpr uint32_t calls = 256;
    static constexpr uint64_t piece = 1024, most_notes = 4096;
    // Who takes the notes, and where they stand as text or in bytes until he took them. Of the notes that the journal keeps so many, the oldest, went
    // on already; so many were kept and are no more; and so many stand there.
    std::function<void(const std::string &)> keeper;
    std::string notes;
    uint64_t passed = 0, gone = 0, held = 0;
    uint32_t left = calls;

    // A call of the library copies so many at most, and so does a call that looks after notes: some 20 us.
    uint64_t copied() const noexcept { return how == form::text ? 128 : 256; }
    // Puts some notes that didn't go on behind this text, and forgets all once none is left: FX_OK or FX_NO_MEMORY.
    fx_code put_some(std::string &text) {
        uint64_t some = 0, count = 0;
        fx_code code = copy(passed, copied(), text, some);
        if (code != FX_OK) return code;
        passed += some;
        held += some;
        if (some == copied()) return FX_OK;
        passed = 0;
        return forget(count);
    }
    // Copies notes for whoever takes them, behind those that an exception of his left: some, or all. He takes them once all are copied, or many. Whether
    // anybody takes them.
    bool hand_on(bool all) {
        if (!keeper) return false;
        do {
            if (put_some(notes) != FX_OK) return false;
        } while (passed > 0 && all);
        if (passed > 0 && held < most_notes) return true;
        keeper(notes);
        notes.clear();
        held = 0;
        return true;
    }
    // Hands notes on before the journal is full. A journal of few notes waits until it is.
    void look() {
        left = calls;
        uint64_t kept = 0, free_notes = 0;
        if (!keeper || notes_kept(kept, free_notes) != FX_OK) return;
        if (kept + free_notes >= 2 * piece && (passed > 0 || kept >= piece)) hand_on(false);
        if (passed > 0) left = calls / 16;
    }

protected:
    fx_seat seat = FX_NO_SEAT;
    form how = form::text;

    noted() = default;
    noted(noted &&other) noexcept
        : keeper(std::move(other.keeper)), notes(std::move(other.notes)), passed(other.passed), gone(other.gone), held(other.held), left(other.left),
          seat(std::exchange(other.seat, fx_seat FX_NO_SEAT)), how(other.how) {}
    // So many calls may have made as many notes as one did.
    void count_more(uint64_t of) { left -= static_cast<uint32_t>(std::min<uint64_t>(left - 1, of)); }
    // Makes a call, and makes it again if the journal is full and somebody takes its notes.
    template <class Call> uint32_t called(Call call) {
        if (--left == 0) look();
        uint32_t code = call();
        return code == FX_JOURNAL_FULL && hand_on(true) ? call() : code;
    }

public:
    // Puts the notes that the journal keeps behind this text, in the form of the house: FX_OK, or FX_NO_MEMORY. The journal keeps none of them then,
    // and all its notes are free. All parts of an actor are its notes in the text of the journals, or in the journals as bytes. An exception of the
    // string loses none of them.
    [[nodiscard]] fx_code pass_on(std::string &text) {
        do {
            fx_code code = put_some(notes);
            if (code != FX_OK) return code;
        } while (passed > 0);
        text += notes;
        notes.clear();
        held = 0;
        return FX_OK;
    }
    // How many notes the journal keeps, and how many more it has room for: FX_OK, or FX_EMPTY behind the end.
    [[nodiscard]] fx_code notes_kept(uint64_t &kept, uint64_t &free_notes) noexcept { return static_cast<fx_code>(fx_seat_notes(&seat, &kept, &free_notes)); }
    // Puts so many notes at most behind this text, in the form of the house, from the place `from` on of those that the journal keeps, and writes how
    // many they are: FX_OK, FX_NO_MEMORY or FX_EMPTY. All of them stay. Of no notes there is no part. An exception of the string leaves all as it was.
    [[nodiscard]] fx_code copy(uint64_t from, uint64_t most, std::string &text, uint64_t &notes_copied) {
        std::size_t had = text.size();
        // A line has at most 128 bytes, and a note in bytes 27, behind a head and before sums of 45.
        uint64_t code, count = how == form::text ? 128 * std::min(most, copied()) + 1 : 27 * std::min(most, copied()) + 45;
        do {
            text.resize(had);
            text.resize(had + static_cast<std::size_t>(count));
            auto bytes = reinterpret_cast<uint8_t *>(&text[had]);
            std::size_t room = text.size() - had;
            code = how == form::text ? fx_seat_copy(&seat, from, most, bytes, room, &count, &notes_copied)
                                     : fx_seat_copy_bytes(&seat, gone + from, from, most, bytes, room, &count, &notes_copied);
        } while (code == FX_SHORT);
        text.resize(code == FX_OK && notes_copied > 0 ? had + static_cast<std::size_t>(count) : had);
        return static_cast<fx_code>(code);
    }
    // Forgets the notes that the journal keeps, and writes how many they were. All its notes are free then, and the house can't judge.
    [[nodiscard]] fx_code forget(uint64_t &count) noexcept {
        passed = 0;
        fx_code code = static_cast<fx_code>(fx_seat_forget(&seat, &count));
        if (code == FX_OK) gone += count;
        return code;
    }

    // From now on notes go to `takes`, as by `pass_on`, before the journal is full: about a thousand at a time, and 4096 at most. No call copies more
    // than 128 as text or 256 in bytes, which is some 20 us; one in ten of these calls is that of `takes`. A journal that has room for fewer than
    // 2048, or is nearly full by now, goes out when it is full. So FX_JOURNAL_FULL comes only if the journal has room for fewer notes than one call may
    // need. What is kept at the end goes out by `pass_on`.
    // An exception of `takes` leaves that call, which wasn't made; a job that was handed in with it is destroyed. What was written is kept: it goes first
    // the next time that notes go to `takes`, or to pass_on.
    void keep_notes_by(std::function<void(const std::string &)> takes) { keeper = std::move(takes); }

    // Hands the journal to the house. What went on already goes on whole before.
    [[nodiscard]] fx_code end(fx_house &house) {
        if (passed > 0 && keeper && !hand_on(true)) return FX_NO_MEMORY;
        return static_cast<fx_code>(fx_house_end(&house, &seat));
    }
};

} // namespace fairexec::linked

#endif
