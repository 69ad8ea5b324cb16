// The order of a recording by its times (tools/trace/src/order.rs): where they go back, and whether they fall throughout, as in a
// file that has the newest first. Times of a form that is not known here are not judged.

const Order = (() => {
    const SECOND = 1000000000n, DAY = 86400n * SECOND;

    // A number without a sign.
    /** @param {string} word @param {number} most */
    const number = (word, most) => (/^[0-9]{1,9}$/.test(word) && Number(word) <= most ? Number(word) : null);

    // What stands before the first of some marks, and behind it.
    /** @param {string} word @param {RegExp} marks @returns {[string, string | null]} */
    function cut(word, marks) {
        const at = word.search(marks);
        return at < 0 ? [word, null] : [word.slice(0, at), word.slice(at + 1)];
    }

    // Seconds and their fraction, behind a point or a comma.
    /** @param {string} word */
    function seconds(word) {
        const [first, rest] = cut(word, /[.,]/), fraction = rest ?? "0", all = number(first, 999999999);
        if (all === null || !/^[0-9]+$/.test(fraction)) return null;
        return BigInt(all) * SECOND + BigInt((fraction + "000000000").slice(0, 9));
    }

    // What stands before the zone, and how far the zone is ahead.
    /** @param {string} word @returns {[string, bigint] | null} */
    function zoned(word) {
        if (word.endsWith("Z")) return [word.slice(0, -1), 0n];
        const at = Math.max(word.lastIndexOf("+"), word.lastIndexOf("-"));
        if (at < 0) return [word, 0n];
        const zone = word.slice(at + 1), [before, behind] = cut(zone, /:/);
        const [hours, minutes] = behind !== null ? [before, behind] : zone.length === 4 ? [zone.slice(0, 2), zone.slice(2)] : [zone, "0"];
        const h = number(hours, 23), m = number(minutes, 59);
        if (h === null || m === null) return null;
        const ahead = BigInt(h * 3600 + m * 60) * SECOND;
        return [word.slice(0, at), word[at] === "-" ? -ahead : ahead];
    }

    /** @param {string} clock */
    function clockOf(clock) {
        const parts = clock.split(":");
        if (parts.length < 2 || parts.length > 3) return null;
        const second = seconds(parts[2] ?? "0"), h = number(parts[0], 24), m = number(parts[1], 59);
        if (second === null || second > 60n * SECOND || h === null || m === null) return null;
        return BigInt(h * 3600 + m * 60) * SECOND + second;
    }

    // The number of a day: year, month and day with - or /, or day, month and year with points.
    /** @param {string} date */
    function dayOf(date) {
        const parts = date.split(/[-/.]/);
        if (date.includes(".")) parts.reverse();
        if (parts.length !== 3 || parts[0].length !== 4) return null;
        let year = number(parts[0], 9999), month = number(parts[1], 12);
        const day = number(parts[2], 31);
        if (year === null || !month || !day) return null;
        // days from March on, so that the odd month is the last
        [year, month] = month < 3 ? [year + 399, month + 9] : [year + 400, month - 3];
        return 365 * year + Math.floor(year / 4) - Math.floor(year / 100) + Math.floor(year / 400) + Math.floor((153 * month + 2) / 5) + day;
    }

    // The moment that a time names: a date and a clock, a clock alone, or seconds with a fraction; in nanoseconds.
    /** @param {string} word */
    function moment(word) {
        const at = word.indexOf("T"), date = at < 0 ? null : word.slice(0, at), rest = word.slice(at + 1);
        if (date === null && !rest.includes(":")) {
            const nanos = /[.,]/.test(rest) ? seconds(rest) : null;
            return nanos === null ? null : { form: "seconds", nanos };
        }
        const parts = zoned(rest), clock = parts && clockOf(parts[0]), day = date === null ? 0 : dayOf(date);
        if (!parts || clock === null || day === null) return null;
        return { form: date === null ? "clock" : "dated", nanos: clock - parts[1] + BigInt(day) * DAY };
    }

    // The frames whose time is before that of the frame before them; and whether every time is that or earlier, and one is earlier.
    /** @param {(string | null)[]} times */
    function judged(times) {
        /** @type {number[]} */
        const back = [];
        /** @type {{ form: string, nanos: bigint } | null} */
        let last = null;
        let rises = false, days = 0n;
        for (const [i, time] of times.entries()) {
            const now = time === null ? null : moment(time);
            if (!now) continue;
            if (last && last.form === now.form) {
                if (now.form === "clock") {
                    // a clock without a date begins anew at midnight
                    if (last.nanos - (now.nanos + days) > DAY / 2n) days += DAY;
                    now.nanos += days;
                }
                rises ||= now.nanos > last.nanos;
                if (now.nanos < last.nanos) back.push(i);
            }
            last = now;
        }
        return { back, falls: !rises && back.length > 0 };
    }

    // Seconds from one time to another, if both are of one form and it is later.
    /** @param {string} from @param {string} to */
    function between(from, to) {
        const a = moment(from), b = moment(to);
        return a && b && a.form === b.form && b.nanos >= a.nanos ? Number((b.nanos - a.nanos) / SECOND) : null;
    }

    return { moment, judged, between };
})();
