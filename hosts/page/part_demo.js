// Part 5: the demonstration, step by step.

class DemoPart {
    /** @param {App} app @param {HTMLElement} root */
    constructor(app, root) {
        this.app = app;
        this.steps = demonstration(app.proved, MADE.demo, app.samples()[0][1]() ?? new Uint8Array(0));
        this.shown = 1;
        this.view = el("ol", { class: "demo" });
        this.next = button("Next step", () => this.go(this.shown + 1), { class: "main" });
        root.append(el("h2", {}, "The demonstration"), el("p", { class: "what" }, "The device with the sample sheet at work, step by step: what a tool sends, what the device answers, and what changed."), this.view,
            el("div", { class: "actions steps" }, this.next, button("All of it", () => this.go(this.steps.length)), button("Start over", () => this.go(1))));
        this.go(1);
    }

    /** Made anew, with keys or without. */
    show() {
        this.view.replaceChildren(...this.steps.slice(0, this.shown).map(step => stepView(step, this.app.keys)));
    }

    /** @param {number} count */
    go(count) {
        this.shown = Math.min(count, this.steps.length);
        this.next.disabled = this.shown === this.steps.length;
        while (this.view.childElementCount > this.shown) this.view.lastElementChild?.remove();
        while (this.view.childElementCount < this.shown) this.view.append(stepView(this.steps[this.view.childElementCount], this.app.keys));
        if (this.shown > 1) this.view.lastElementChild?.scrollIntoView({ block: "nearest" });
    }
}

/** @param {Shown[]} step @param {boolean} keys */
const stepView = (step, keys) => el("li", {}, ...step.map(({ kind, text, hidden = text, outcome }) => {
    if (kind === "text") return el("p", { class: "text" }, text);
    if (kind === "sent") return el("div", { class: "sent" }, keys ? text : hidden);
    if (kind === "change") return el("div", { class: "change" }, text);
    return el("div", { class: "answer" }, text, outcome !== undefined && el("span", { class: outcome <= 1 ? "good" : "bad" }, outcomeText(outcome)));
}));
