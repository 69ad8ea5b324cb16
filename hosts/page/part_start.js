// The first card: what a person may have, and what the page does with it.

class StartPart {
    /** @param {App} app @param {HTMLElement} root */
    constructor(app, root) {
        this.app = app;
        this.story = el("div");
        /** @param {string} title @param {string} question @param {Child} way */
        const card = (title, question, way) => el("section", { class: "card" }, el("h3", {}, title), el("p", {}, question), way);
        this.example = button("Show me an example", () => this.tell(), { class: "main", "aria-expanded": "false" });
        root.append(el("h2", {}, "What have you got?"),
            el("p", { class: "what" }, "Drop your files anywhere on this page, paste them, or choose them here, several at once if there are several. The page finds out what each is. Nothing leaves this page."),
            el("div", { class: "choices" },
                card("One dump", "What is in it? Is the height right? Does it keep the rules?", chooser(app, "Choose the dump", null)),
                card("Two dumps", "What differs between them?", chooser(app, "Choose both", null)),
                card("A dump and a recording", "Who changed it, when, and with what right? A dump from before, one from after if you have it, and what was recorded on the bus between them.", chooser(app, "Choose them together", null)),
                card("Nothing", "See how it works: a tank has overrun, and somebody must have changed the height.", this.example)),
            paster(app, null), this.story,
            el("h3", {}, "What the words mean"),
            el("dl", { class: "terms" }, ...(/** @type {const} */ ([["Sheet", "sheet"], ["Dump", "dump"], ["Recording", "recording"], ["Trace", "trace"], ["Level", "level"]])).map(([word, name]) => el("div", {}, el("dt", {}, word), el("dd", {}, MEANS[name])))));
    }

    /** The accident, and the same once more to look at in the other parts. */
    tell() {
        const { app } = this;
        app.accident();
        this.story.replaceChildren(accidentStory(app.proved, () => app.open("two"), () => app.open("trace")));
        this.example.setAttribute("aria-expanded", "true");
        const story = /** @type {HTMLElement} */ (this.story.firstElementChild);
        story.tabIndex = -1;
        story.focus({ preventScroll: true });
        story.scrollIntoView({ block: "start" });
    }

    /** The picture has the width of the window. */
    show() {
        if (this.story.firstElementChild) this.story.replaceChildren(accidentStory(this.app.proved, () => this.app.open("two"), () => this.app.open("trace")));
    }
}
