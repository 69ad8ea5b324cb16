// What the words on the page mean, and where one gets what they name: a sentence under each heading.

const MEANS = {
    sheet: "A sheet is all that a controller keeps, in one run of bytes: address, keys, memory, properties (the probe's height is one), group values.",
    dump: "A dump is a sheet that was read out of a controller and saved as a file: whoever serves the controller has it; of kelindap-device it is the file with which it was started. Its text or its hex digits are taken too.",
    recording: "A recording is what somebody kept of the bus: the frames of a USB interface as lines in hex, what ETS's group or bus monitor saves as XML, or what knxtool's bus monitors write.",
    trace: "A trace is the list of events that reached one controller: connects, requests, the button. This page makes it of a recording, as kelindap-trace make does.",
    level: "A level is what a connection may do. 3 is everybody's; who offers the key of level 2, 1 or 0 has that level until the connection ends, and a lower number may do more. The sheet says which level it takes to read and to write each thing.",
    two: "Two dumps of one controller from two days, or of two controllers that should be the same.",
    versions: "A store keeps up to eight earlier versions of a controller's properties; the host has it in a file of its own.",
};

/** @param {...(keyof typeof MEANS)} names */
const means = (...names) => el("p", { class: "what" }, names.map(name => MEANS[name]).join(" "));
