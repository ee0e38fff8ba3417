// Colours of things: by object, by shape, or by the value of an attribute.

const Colours = (() => {
  "use strict";

  const HUES = [
    "#4e79a7", "#f28e2b", "#59a14f", "#76b7b2", "#edc948", "#b07aa1", "#9c755f", "#86bcb6",
    "#a0cbe8", "#8cd17d", "#b6992d", "#499894", "#d4a6c8", "#ffbe7d", "#79706e", "#6b8fb5",
    "#c9a66b", "#7fb77e", "#9d94c4", "#bab0ac",
  ];
  // from light to dark, so that the sequence shows in grey too
  const RAMP = [[253, 231, 37], [94, 201, 98], [33, 145, 140], [59, 82, 139], [68, 1, 84]];
  const BLAMED = "#e5534b";
  const PALE = 1.68;

  const rgbOf = (colour) => [1, 3, 5].map((at) => parseInt(colour.slice(at, at + 2), 16));

  function hexOf(parts) {
    const digits = parts.map((part) => {
      return Math.max(0, Math.min(255, Math.floor(part + 0.5))).toString(16).padStart(2, "0");
    });
    return `#${digits.join("")}`;
  }

  // The colour of the ramp at a share from 0 to 1.
  function rampColour(share) {
    const at = Math.min(share * (RAMP.length - 1), RAMP.length - 1.0001);
    const [low, high] = [RAMP[Math.floor(at)], RAMP[Math.floor(at) + 1]];
    return hexOf(low.map((part, n) => part + (high[n] - part) * (at - Math.floor(at))));
  }

  // The colour darker (light below 1) or nearer to white (above 1).
  function lit(colour, light) {
    const parts = rgbOf(colour);
    if (light <= 1) return hexOf(parts.map((part) => part * light));
    return hexOf(parts.map((part) => part + (255 - part) * (light - 1)));
  }

  function isDark(colour) {
    const [red, green, blue] = rgbOf(colour);
    return 0.3 * red + 0.59 * green + 0.11 * blue < 140;
  }

  const keyOf = (thing, by) => {
    if (by === "object") return thing.name;
    return by === "shape" ? thing.shape : thing.attributes[by] || 0;
  };

  // A colour for each key: hues in turn for names, a ramp for three or more values of an attribute.
  function palette(things, by) {
    const isName = by === "object" || by === "shape";
    let keys = Cells.unique(things.map((thing) => keyOf(thing, by)));
    let colourOf = (key, n) => HUES[n % HUES.length];
    if (!isName && keys.length > 2) {
      keys = keys.sort((a, b) => a - b);
      colourOf = (key) => rampColour((key - keys[0]) / (keys[keys.length - 1] - keys[0]));
    }
    const colours = new Map(keys.map((key, n) => [key, colourOf(key, n)]));
    return {
      of: (thing) => colours.get(keyOf(thing, by)),
      legend: keys.map((key) => ({
        label: isName ? key : `${by} = ${key}`, colour: colours.get(key),
      })),
    };
  }

  // How things look: by a palette; where some are blamed, those are red and the others pale.
  function look(colours, blamed) {
    const isBlamed = (thing) => blamed.has(thing.name);
    const isFaded = (thing) => blamed.size > 0 && !isBlamed(thing);
    const fill = (thing) => (isBlamed(thing) ? BLAMED : colours.of(thing));
    return {
      fill, isBlamed, isFaded,
      flatFill: (thing) => (isFaded(thing) ? lit(fill(thing), PALE) : fill(thing)),
    };
  }

  return { palette, look, lit, isDark };
})();
