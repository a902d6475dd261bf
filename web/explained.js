'use strict';
// A file as `./codes explain` takes it: it is run or checked, and explained.

const textIn = (bytes) => new TextDecoder().decode(bytes);

// gives the lines of the text of a script, or null if it ends with a fault
function asker(module) {
  return (script) => {
    const { status, output } = resultOf(module, ['run'], bytesOf(script));
    return status === 0 ? textIn(output).split('\n').slice(0, -1) : null;
  };
}

// the lines that explain what the module says of these bytes
function explained(module, bytes) {
  const script = signsOf(bytes);
  if (isCertificate(script)) return linesOfRejection(script, textIn(resultOf(module, ['check'], bytes).output));
  const { status, output } = resultOf(module, ['run'], bytes);
  if (status === 0 && !script.trim()) return [TEXTS.empty];
  return status === 1 ? linesOf(explanationOf(script, faultOf(textIn(output)), asker(module))) : [];
}
