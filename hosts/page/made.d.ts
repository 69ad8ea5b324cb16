// What mk/bin/page puts into the page: words of kelindap_names.h, the sheets of hosts, the accident, the demonstration, the module.
declare const MADE: {
    readonly kinds: string[];
    readonly outcomes: Record<number, string>;
    readonly rules: Record<number, string>;
    /** name and hex digits; the first is the sample sheet */
    readonly sheets: [string, string][];
    /** the files of examples/accident, each with its name */
    readonly accident: { before: [string, string], after: [string, string], recording: [string, string] };
    readonly demo: string;
    /** in base 64 */
    readonly wasm: string;
};
