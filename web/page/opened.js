// Opens the programs that are in the page, and says in the page what it can do with them and without.
'use strict';

/** The programs, once they run here; null where there are none. Tests use it. */
var programs = null;

/** Opens the programs. Returns '' or, where they can't run, why. */
async function openPrograms() {
  const modules = {};
  for (const name of ['rcv', 'rcv-show']) {
    const letters = byId(`module-${name}`).textContent.trim();
    if (letters) modules[name] = bytesOfLetters(letters);
  }
  if (Object.keys(modules).length < 2) return 'No program is in this page.';
  try {
    programs = await Programs.open(modules);
    return '';
  } catch (error) {
    return error.message;
  }
}

/** Says something above everything else. */
function announce(words) {
  byId('banner').textContent = words;
  byId('banner').hidden = words === '';
}

/** Says what the page can't do without programs, for this reason. */
function tellOfLack(reason) {
  announce(`${reason} So texts can't be changed here. The examples and their crashes are here, with all answers.`);
  byId('about-programs').textContent =
    'The answers here are those of rcv and rcv-show to the examples, written when the page was made.';
}

/** Says what the programs in the page are. */
function tellOfPrograms() {
  const { commit, modules, sources } = JSON.parse(byId('made').textContent);
  byId('about-programs').append(
    'The programs in this page are the same programs, compiled for the browser from what was proved, at the commit ',
    code(commit),
    ". What the way to the browser adds isn't covered by the proofs; docs/PAGE.md says what that is. ",
    'The answers to the examples came with the page.',
  );
  for (const [name, sum] of Object.entries(modules)) {
    const words = [code(name), ' has the sum ', code(sum), ', its sources have ', code(sources[name]), ' (sha256).'];
    byId('about').append(element('p', {}, ...words));
  }
}
