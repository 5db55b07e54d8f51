"use strict";
// Texts, the picture and the report become files, and what is not saved is asked for before it goes.

const Saving = (() => {
  const NAMES = { left: "path1.nc", right: "path2.nc", cell: "settings.txt" };

  /** Saves a text as a file, byte by byte. */
  function saveText(text) {
    text.fileName ||= NAMES[text.field.id.replace("judge-", "")];
    download(text.fileName, text.bytes(), "application/octet-stream");
    text.setChanged(false);
    Judge.keepSoon();
  }

  const isUnsaved = text => text.isChanged && !text.isEmpty();

  /** Saves the texts that have changes. */
  const saveAll = texts => texts.filter(isUnsaved).forEach(saveText);

  /** Asks whether the changes of these texts may go, or are saved first. It answers whether all goes on. */
  function mayGo(texts) {
    const lost = texts.filter(isUnsaved), dialog = $("judge-unsaved");
    if (!lost.length) return Promise.resolve(true);
    $("judge-unsaved-said").textContent = `Not saved: ${lost.map(text => text.title.textContent).join(" and ")}. The changes would go.`;
    dialog.returnValue = "stay";
    dialog.showModal();
    return new Promise(done => dialog.addEventListener("close", () => {
      if (dialog.returnValue === "save") saveAll(lost);
      done(dialog.returnValue !== "stay");
    }, { once: true }));
  }
  $("judge-unsaved").addEventListener("keydown", event => event.stopPropagation());

  // ---- the report ----

  /** The head of the report: which texts it is of. */
  function headOf(texts) {
    const now = new Date().toISOString().slice(0, 16).replace("T", " ");
    const [left, right, cell] = texts.map(text => `${text.fileName || "typed"}${text.isChanged ? ", changed" : ""}, ${text.bytes().length} bytes`);
    return [`twin_lathe, report of ${now} UTC`, `path 1: ${left}`, `path 2: ${right}`, `settings: ${cell}`];
  }

  /** A part of the report: what it is, and the lines that the judge said. */
  const part = (name, text) => ["", `== ${name}`, ...text.trimEnd().split("\n")];

  /** What the panel of the verdict says, with the meanings, line by line. */
  const saidOf = name => [...$(`judge-${name}`).children].map(child => child.innerText).join("\n");

  /** Saves all that was said of the texts, and the report of the run. */
  async function saveReport(texts) {
    const { answers, plained } = Judge, isRun = /^trace /.test(answers.trace?.text ?? plained?.trace?.text ?? "");
    const run = isRun ? await Judge.report() : null;
    const further = [...$("judge-further").querySelectorAll("summary")].map(line => line.textContent).join("\n");
    const races = (answers.trace?.text ?? "").match(/^races \d+\n[^]*/m);
    const lines = [...headOf(texts), ...part("verify", saidOf("verdict")), ...further ? part("further refusals", further) : [],
                   ...plained ? part("written out by plain", saidOf("plain")) : [],
                   ...part("waits", answers.waits?.text || saidOf("waits")), ...races ? part("races", races[0]) : [],
                   ...["state", "zones"].flatMap(name => $(`judge-${name}`).children.length ? part(name, saidOf(name)) : []),
                   ...run ? part("run, the paths take turns", run.text) : []];
    download("twin_lathe report.txt", `${lines.join("\n")}\n`, "text/plain");
  }

  return { saveText, saveAll, saveReport, mayGo, isUnsaved };
})();
