// What a store of versions keeps (docs/STORE.md), for showing it. Whether it is good, and which versions it keeps, is the module's
// to say; their bodies stand end to end behind the table.

/** @typedef {{ number: number, settings: Uint8Array }} Version */

// The versions in a store.
/** @param {Proved} proved @param {Uint8Array} store @returns {Version[]} */
function versionsOf(proved, store) {
    const kept = proved.kept(store);
    let at = 8 + 8 * kept.length;
    return kept.map(({ number, length }) => ({ number, settings: store.slice(at, at += length) }));
}

/**
 * What the properties of a sheet hold now that a version held otherwise, by meaning; nothing can be said if it is of another sheet.
 * @param {Uint8Array} sheet @param {Version} version
 */
function sinceVersion(sheet, version) {
    const { settings } = version, e = entriesOf(sheet), entries = 12 * e.properties.length;
    const bodies = e.properties.reduce((sum, p) => sum + p.length, 0);
    if (number(settings, 0, 2) !== e.properties.length || settings.length !== 2 + entries + bodies) return null;
    const as = sheet.slice();
    if (e.properties.length) {
        as.set(settings.subarray(2, 2 + entries), e.properties[0].at);
        as.set(settings.subarray(2 + entries), e.properties[0].body);
    }
    return propertiesDiffer(as, sheet, entriesOf(as).properties, e.properties);
}
