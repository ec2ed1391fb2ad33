/* Runs after the functions of the package, with `functions`, and `read`, which returns the bytes of the module. */
"use strict";

const compiled = new WebAssembly.Module(read());
functions.initSync(compiled);
const [kind, sources] = new TextDecoder().decode(WebAssembly.Module.customSections(compiled, "modinfo")[0]).split("\n");
const says = kind === "proved" ? "The functions that run here are proved" : "What runs here was made without proofs";
postMessage({ about: `${says}; ${sources}.` });

onmessage = ({ data: { number, text, specifier, mediaType } }) => {
  try {
    const info = functions.moduleInfoSync(text, specifier, mediaType || undefined);
    postMessage({ number, info });
  } catch (error) {
    const { name, fault, line, column, message } = error;
    postMessage({ number, fault: fault ?? name, line, column, message });
  }
};
