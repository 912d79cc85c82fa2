// What a refusal says, and at which line it stands.
'use strict';

/** A refusal: its line, its code, the number of its line where it has one, and whether a rule of acceptance refuses. */
function refusalOf(answer) {
  const said = answer.trimEnd();
  const [, code, line] = /^refused (\d+) \w+(?: line (\d+))?/.exec(said);
  return { said, code, line: line ? Number(line) : null, isRule: / \w+ \d+$/.test(said) && !line };
}

/** The call that explains a refusal. */
function explainCall({ code }) {
  return `rcv-show explain --code ${code}`;
}

/**
 * What `rcv-show points` says after the points of a text that a rule refuses: the paragraphs, and the lines that they
 * name, first that of the place. A line of a point is a paragraph of its own.
 */
function toldByPoints(points) {
  const told = points.slice(points.indexOf('\n\n') + 2).trimEnd().split('\n').slice(1);
  const named = /^\d+ line (\d+) |, line (\d+)\. Its next points there:$/;
  const found = told.map((line) => named.exec(line)).filter(Boolean);
  const lines = found.map(([, point, place]) => Number(point ?? place));
  return { lines: [...new Set(lines)], paragraphs: paragraphsOf(told) };
}

/** What `rcv-show explain` says of a refusal, but for its examples, and the line where it stands. */
function toldByExplanation({ line }, explanation) {
  const paragraphs = paragraphsOf(explanation.split('\n').slice(1));
  return { lines: line ? [line] : [], paragraphs: paragraphs.filter(({ kind }) => kind !== 'code') };
}

/** The paragraphs of lines, each with its kind: `code`, `point` or `prose`. */
function paragraphsOf(lines) {
  const paragraphs = [];
  let isOpen = false;
  for (const line of lines) {
    const kind = /^ {4}/.test(line) ? 'code' : /^\d+ line \d+ /.test(line) ? 'point' : 'prose';
    const last = paragraphs[paragraphs.length - 1];
    const isNext = isOpen && last.kind === kind && kind !== 'point' && !line.startsWith('Repair: ');
    if (line === '') {
      isOpen = false;
    } else if (isNext) {
      last.text += kind === 'code' ? `\n${line.slice(4)}` : ` ${line}`;
    } else {
      paragraphs.push({ kind, text: kind === 'code' ? line.slice(4) : line });
      isOpen = !line.endsWith(':');
    }
  }
  return paragraphs;
}
