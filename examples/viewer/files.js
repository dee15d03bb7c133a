/**
 * Takes a script and its report, from files that are chosen or dropped or from addresses, and has both drawn.
 */
import { looksLikeScript } from './read.js';

export class Files {
  #parts;
  #chart;
  #script = null;
  #report = null;

  /**
   * @param {ReturnType<import('./main.js').partsOf>} parts
   * @param {import('./chart.js').Chart} chart
   */
  constructor(parts, chart) {
    this.#parts = parts;
    this.#chart = chart;
    for (const [kind, input] of Object.entries(parts.inputs)) {
      input.addEventListener('change', () => this.#takeFiles([...input.files], kind));
    }
    const { body } = parts;
    const mark = (isOver) => body.classList.toggle('is-over', isOver);
    body.addEventListener('dragover', (event) => {
      event.preventDefault();
      mark(true);
    });
    body.addEventListener('dragleave', () => mark(false));
    body.addEventListener('drop', (event) => {
      event.preventDefault();
      mark(false);
      this.#takeFiles([...event.dataTransfer.files]);
    });
  }

  /**
   * Reads what the page's address names: `?script=URL&report=URL`; a report that it doesn't name is looked for beside
   * the script.
   * @param {URL} address
   */
  async fetchFrom(address) {
    const script = address.searchParams.get('script');
    if (script === null) return;
    const report = address.searchParams.get('report') ?? script.replace(/\.script$/, '.report');
    this.#tell('Reading …');
    const texts = await Promise.all([fetchText(script, address), fetchText(report, address)]).catch((error) => {
      this.#tell(error.message);
      return null;
    });
    if (texts !== null) this.#take(...texts);
  }

  /** Files of which each is a script or a report by its name, or else by its first line. */
  async #takeFiles(files, kind = null) {
    const texts = await Promise.all(files.map((file) => file.text())).catch(() => null);
    if (texts === null) {
      this.#tell('The file can\'t be read.');
      return;
    }
    const kinds = files.map(({ name }, index) => kind ?? kindOf(name, texts[index]));
    this.#take(texts[kinds.lastIndexOf('script')] ?? null, texts[kinds.lastIndexOf('report')] ?? null);
  }

  /** Takes what came, or null. A new script wants a new report, unless the one that is there has no script yet. */
  #take(script, report) {
    if (script !== null && this.#script !== null) this.#report = null;
    this.#script = script ?? this.#script;
    this.#report = report ?? this.#report;
    if (this.#script !== null && this.#report !== null) {
      this.#chart.show(this.#script, this.#report);
      return;
    }
    this.#chart.hide();
    if (this.#report !== null) this.#tell('The report is there; its script is wanted.');
    if (this.#script !== null) this.#tell('The script is there; its report is wanted.');
  }

  #tell(text) {
    this.#parts.state.textContent = text;
  }
}

function kindOf(name, text) {
  if (name.endsWith('.script')) return 'script';
  return name.endsWith('.report') || !looksLikeScript(text) ? 'report' : 'script';
}

/** The text at an address of this page's own origin. */
async function fetchText(reference, base) {
  const address = URL.canParse(reference, base) ? new URL(reference, base) : null;
  if (address?.origin !== base.origin) throw new Error(`“${reference}” isn't of this page's own origin.`);
  const response = await fetch(address, { redirect: 'error' }).catch(() => {
    throw new Error(`“${reference}” can't be reached.`);
  });
  if (!response.ok) throw new Error(`“${reference}” can't be read: the server says ${response.status}.`);
  return response.text();
}
