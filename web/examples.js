// The examples: each is an image or how to make one, what ran on it, and a program to try.

/** Where an example's file is served. */
export const exampleFile = (name) => `out/examples/${name}`;

/** The examples that the editor can open. */
export const SOURCES = [
  "increment.lez",
  "count.lez",
  "cache.lez",
  "configure.lez",
  "settings.lez",
  "publish.lez",
  "notice.lez",
  "increment.text",
  "count.text",
  "cache.text",
  "configure.text",
  "settings.text",
  "publish.text",
  "notice.text",
];

export const EXAMPLES = [
  { title: "A number: x is 41", image: "counter.image", source: "increment.lez" },
  {
    title: "A cache: a map and a list",
    make: { size: 2048, allocator: 0, index: 0 },
    ran: [{ source: "cache.lez", input: "abcada" }],
    source: "cache.lez",
    input: "dada",
  },
  {
    title: "Settings: a struct of a map and a text",
    make: { size: 4096, allocator: 1, index: 1 },
    ran: [{ source: "configure.lez" }],
    source: "settings.lez",
  },
  {
    title: "A notice: frozen and shared",
    make: { size: 2048, allocator: 0, index: 0 },
    ran: [{ source: "publish.lez" }],
    source: "notice.lez",
  },
  { title: "Visits: counts its runs", make: { size: 4096, allocator: 1, index: 1 }, source: "count.lez" },
  { title: "A damaged image", image: "counter.image", damage: [[756, 2]], source: "increment.lez" },
];
