// Bytes from a person: files chosen or dropped, text or hex digits pasted, one of the page's own; and saved as a file.

/** No more is read of a file: a recording of months has less. */
const MOST_BYTES = 1 << 26;

/** @typedef {"sheet" | "events" | "store"} Wanted */
/**
 * A place for files, and what one is there. `put` takes one of the kind that is wanted; `tell` says what it holds now, `fault` why it was not taken.
 * @typedef {{ as: string, part: string, wants: Wanted, put: (what: WhatIs) => void, tell: (name: string, bytes: Uint8Array, words?: string) => void, fault: (text: string) => void, box: HTMLElement }} Place_
 */

/**
 * Files with their bytes; what can't be read is told by itself.
 * @param {Iterable<File>} files @returns {Promise<(Named | string)[]>}
 */
async function filesRead(files) {
    return Promise.all([...files].map(async file => {
        if (file.size > MOST_BYTES) return `${file.name} has ${counted(file.size, "byte")}, more than the page reads: it was not taken`;
        try {
            return { name: file.name, bytes: new Uint8Array(await file.arrayBuffer()) };
        } catch {
            return `${file.name} can't be read: it was not taken`;
        }
    }));
}

/** @param {string} text @returns {Named} */
const pasted = text => ({ name: "pasted", bytes: new TextEncoder().encode(text) });

/** @param {Uint8Array} bytes @param {string} name @param {string} [type] */
function saveFile(bytes, name, type = "application/octet-stream") {
    const link = el("a", { href: URL.createObjectURL(new Blob([bytes], { type })), download: name });
    link.click();
    setTimeout(() => URL.revokeObjectURL(link.href), 1000);
}

// A field to choose files, one or several.
/** @param {App} app @param {string} label @param {Place_ | null} place */
function chooser(app, label, place) {
    const file = el("input", { type: "file", multiple: true });
    file.addEventListener("change", () => {
        const chosen = [...(file.files ?? [])];
        file.value = ""; // so that the same file can be chosen again, once it is another
        if (chosen.length) app.takeFiles(chosen, place);
    });
    return labelled(label, file);
}

// A field to paste something.
/** @param {App} app @param {Place_ | null} place */
function paster(app, place) {
    const text = el("textarea", { rows: 4, spellcheck: "false", autocomplete: "off" });
    return el("details", {}, el("summary", {}, "Paste text or hex digits"), labelled("Text or hex digits", text), button("Take these", () => {
        if (app.take([pasted(text.value)], place)) text.value = ""; // what has keys in it does not stay in sight
    }));
}

/**
 * A place where files come in, by choice, drop or paste, of any kind: what belongs elsewhere goes there. `others` are what the page
 * has itself. It tells what it holds, also what came from elsewhere on the page.
 * @param {App} app @param {string} part @param {[string, string]} title and what a file is there @param {Wanted} wants @param {(bytes: Uint8Array, name: string, what?: WhatIs) => void} taken
 * @param {[string, () => Uint8Array | Named | null][]} others @returns {Place_}
 */
function source(app, part, [title, as], wants, taken, others) {
    const said = el("p", { class: "said", role: "status" });
    /** @param {string} text @param {boolean} bad */
    const say = (text, bad) => {
        said.textContent = text;
        said.classList.toggle("fault", bad);
    };
    const box = el("fieldset", { class: "source" });
    /** @type {Place_} */
    const place = { as, part, wants, box,
        put: what => { taken(what.bytes, what.name, what); place.tell(what.name, what.bytes, what.words); },
        tell: (name, bytes, words) => say(words ? `${name}: ${words}` : `${name}, ${counted(bytes.length, "byte")}`, false),
        fault: text => say(text, true) };
    const menu = choice(others.map(([text], i) => [String(i), text]));
    // by a button, since arrow keys go through all choices
    const takeOther = () => {
        const [text, get] = others[Number(menu.value)];
        try {
            const given = get(), [bytes, name] = given instanceof Uint8Array || !given ? [given, text] : [given.bytes, given.name];
            if (!bytes) throw new Fault(`there is none yet: ${text}`);
            taken(bytes, name);
            place.tell(name, bytes);
        } catch (error) {
            if (!(error instanceof Fault)) throw error;
            place.fault(error.message);
        }
    };
    box.append(el("legend", {}, title),
        el("div", { class: "ways" }, chooser(app, "Open a file, or drop it here", place),
            others.length > 0 ? labelled("Or of the page's own", el("div", { class: "taken" }, menu, button("Take it", takeOther)), "field", menu) : ""),
        paster(app, place), said);
    box.addEventListener("dragover", () => box.classList.add("over"));
    box.addEventListener("dragleave", () => box.classList.remove("over"));
    box.addEventListener("drop", event => {
        event.preventDefault();
        event.stopPropagation();
        box.classList.remove("over");
        app.takeFiles(event.dataTransfer?.files ?? [], place);
    });
    return place;
}

// Files that are dropped or pasted anywhere else are taken too; none replaces the page.
/** @param {App} app */
function anywhere(app) {
    document.addEventListener("dragover", event => event.preventDefault());
    document.addEventListener("drop", event => {
        event.preventDefault();
        app.takeFiles(event.dataTransfer?.files ?? [], null);
    });
    document.addEventListener("paste", event => {
        const { clipboardData: data, target } = event;
        if (!data || (target instanceof HTMLElement && target.matches("input, textarea, select"))) return;
        event.preventDefault();
        if (data.files.length) app.takeFiles(data.files, null);
        else if (data.getData("text").trim()) app.take([pasted(data.getData("text"))], null);
    });
}
