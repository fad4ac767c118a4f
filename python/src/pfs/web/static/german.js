// The texts of the page in German. What the server says of tables is translated by patterns; the rest of it is English.
const GERMAN = {
  "Plan a flow shop": "Fließfertigung planen", "Language": "Sprache", "What is planned?": "Was wird geplant?",
  "An order of jobs for which all are finished early. It is the same on each machine: no job overtakes another.":
    "Eine Reihenfolge, in der alle Aufträge früh fertig sind. Sie ist auf jeder Maschine gleich: keiner überholt.",
  "Each job goes through the machines in the order of the columns, and may wait between two of them.":
    "Jeder Auftrag geht in der Reihenfolge der Spalten über die Maschinen und darf dazwischen warten.",
  "Due dates, set-up times, batches, parallel machines and jobs that arrive later are not planned.":
    "Liefertermine, Rüstzeiten, Lose, parallele Maschinen und spätere Ankünfte werden nicht geplant.",
  "1 Table": "1 Tabelle", "2 Plan": "2 Planen", "3 Result": "3 Ergebnis",
  "Drop a table here, choose a file (.xlsx, .csv), or paste cells (Ctrl+V). A row is a job, a column is a machine. \
What was saved here (.json) opens too.":
    "Tabelle hierher ziehen, Datei wählen (.xlsx, .csv) oder Zellen einfügen (Strg+V). Eine Zeile ist ein Auftrag, "
    + "eine Spalte eine Maschine. Hier Gespeichertes (.json) öffnet sich auch.",
  "Sheet": "Blatt", "Unit of the times": "Einheit der Zeiten", "as in the table": "wie in der Tabelle",
  "Decimal sign": "Dezimalzeichen", "comma": "Komma", "point": "Punkt", "Decimals": "Nachkommastellen", "all": "alle",
  "Sums are jobs and machines too": "Summen sind auch Aufträge und Maschinen",
  "All columns are machines": "Alle Spalten sind Maschinen", "Add a row": "Zeile hinzufügen",
  "Column of the jobs": "Spalte der Aufträge", "Column of quantities": "Spalte der Mengen",
  "Columns of set-ups": "Spalten mit Rüstzeiten", "with other times:": "mit anderen Zeiten:",
  "by the file, no order is below {claimed}": "laut Datei geht es unter {claimed} nicht",
  "Dates and shifts": "Termine und Schichten", "Work begins": "Arbeitsbeginn",
  "Shifts, one in a line": "Schichten, je Zeile eine", "Days": "Tage", "Holidays": "Feiertage", "Search for": "Suche",
  "2 seconds": "2 Sekunden", "10 seconds": "10 Sekunden", "a minute": "eine Minute", "10 minutes": "10 Minuten",
  "Plan": "Planen", "Enough": "Genug", "Time of the search": "Zeit der Suche", "Title": "Titel", "Page": "Seite",
  "Calendars": "Kalender", "Order": "Reihenfolge", "Keep for comparison": "Zum Vergleich behalten",
  "Gantt chart": "Gantt-Diagramm", "Machines": "Maschinen", "From now on": "Ab jetzt", "Now": "Jetzt",
  "Drag jobs, use the arrows, or write a place. Tick a job to hold it and all before it. Then plan again.":
    "Aufträge ziehen, Pfeile nutzen oder Platz eintragen. Ein Haken hält den Auftrag und alle davor. Dann neu planen.",
  "Finished jobs are left out, and begun ones held. A machine that is down has its time in the table above.":
    "Fertiges fällt weg, Begonnenes bleibt. Bis wann eine Maschine steht, wird in der Tabelle darüber eingetragen.",
  "Plan the rest": "Den Rest planen", "Plans": "Pläne",
  "The server stores nothing. The table and the plans are in this tab until you close it: save what you need.":
    "Der Server speichert nichts. Tabelle und Pläne sind in diesem Tab, bis er geschlossen wird: bitte speichern.",
  "The server doesn't answer.": "Der Server antwortet nicht.",
  "The server is being restarted.": "Der Server wird neu gestartet.", "It is asked again.": "Er wird wieder gefragt.",
  "The table on this page isn't read yet.": "Die Tabelle auf dieser Seite ist noch nicht gelesen.",
  "The search was ended after {seconds} of {limit} s, as nobody asked for it.":
    "Die Suche endete nach {seconds} von {limit} s, da niemand mehr nach ihr fragte.",
  "Save all of this": "Alles speichern", "Back": "Zurück", "of another table": "von einer anderen Tabelle",
  "This isn't a document that this page has saved.": "Das ist keine Datei, die diese Seite gespeichert hat.",
  "cell changed": "Zelle geändert", "row changed": "Zeile geändert", "machines chosen": "Maschinen gewählt",
  "options chosen": "Optionen gewählt", "file opened": "Datei geöffnet", "rest planned": "Rest geplant",
  "plan shown": "Plan gezeigt", "plan searched": "Plan gesucht", "order taken": "Reihenfolge gelesen",
  "Order from a file": "Reihenfolge aus Datei",
  "No job of the table is in this order.": "Kein Auftrag der Tabelle ist in dieser Reihenfolge.",
  "The table is too large: 6 MB are the most.": "Die Tabelle ist zu groß: höchstens 6 MB.",
  "It is too large to survive a reload of the page.": "Sie ist zu groß, um ein Neuladen der Seite zu überstehen.",
  "It isn't in UTF-8 and was read as Windows text: look at its letters.":
    "Sie ist nicht in UTF-8 und wurde als Windows-Text gelesen: bitte Umlaute prüfen.",
  "hidden rows: {rows}, hidden columns: {columns}, which are read too":
    "ausgeblendete Zeilen: {rows}, ausgeblendete Spalten: {columns}, auch sie werden gelesen",
  "the options of its sheet pfs are used": "die Optionen im Blatt pfs gelten", "but for these:": "außer diesen:",
  "0 in these {count} cells": "0 in diese {count} Zellen",
  "The machines are:": "Die Maschinen sind:", "Row": "Zeile", "and {more} more": "und {more} weitere",
  "{jobs} jobs, {machines} machines ({names}), times in {unit}, decimals: {decimals}":
    "{jobs} Aufträge, {machines} Maschinen ({names}), Zeiten in {unit}, Nachkommastellen: {decimals}",
  "no unit": "keiner Einheit", "is a machine": "ist eine Maschine", "leave this row out": "diese Zeile weglassen",
  "new": "neu", "pasted": "eingefügt", "forget this plan": "diesen Plan vergessen",
  "waits for a processor, place {place}": "wartet auf einen Prozessor, Platz {place}",
  "{makespan} so far, no order is below {bound}; {left} s left":
    "bisher {makespan}, unter {bound} geht es nicht; noch {left} s",
  "what was proved is of another table": "was bewiesen ist, gilt für eine andere Tabelle",
  "finished": "fertig", "optimal: no order is shorter": "optimal: keine Reihenfolge ist kürzer",
  "at most {above} % above the shortest: no order is below {bound}":
    "höchstens {above} % über der kürzesten: unter {bound} geht es nicht",
  "left out, as the table lacks them:": "weggelassen, da nicht in der Tabelle:",
  "new, and inserted where they are best:": "neu und dort eingefügt, wo sie am besten sind:", "place": "Platz",
  "down until": "steht bis", "hold up to here": "bis hier halten", "earlier": "früher", "later": "später",
  "first after what is held, and hold it": "vorziehen, direkt nach dem Gehaltenen, und halten",
  "finished and left out:": "fertig und weggelassen:", "nothing is finished by then": "bis dahin ist nichts fertig",
  "job ends": "Auftrag endet", "shown": "gezeigt", "plan": "Plan", "Plan {number}": "Plan {number}",
  "makespan": "Gesamtdauer", "jobs that move": "verschobene Aufträge", "Show": "Zeigen",
};
const FAULTS = [
  [/^the time is missing: .*/, "die Zeit fehlt: 0, wo ein Auftrag eine Maschine auslässt"],
  [/^the row has no times: .*/, "die Zeile hat keine Zeiten: weglassen, oder 0 eintragen"],
  [/^'(.*)' isn't a time: leave the column out.*/, "'$1' ist keine Zeit: Haken entfernen, wenn es keine Maschine ist"],
  [/^'(.*)' isn't a time: write 0.*/, "'$1' ist keine Zeit: 0, wo ein Auftrag eine Maschine auslässt"],
  [/^'(.*)' isn't a time: it is text.*/, "'$1' ist Text, der wie eine Zahl aussieht: die Zahl neu eingeben"],
  [/^'(.*)' isn't a time: the formula has an error/, "'$1' ist keine Zeit: die Formel hat einen Fehler"],
  [/^'(.*)' isn't a time.*/, "'$1' ist keine Zeit"],
  [/^the (row|column) '(.*)' looks like a (?:sum|mean).*/, "'$2' sieht nach einer Summe aus: weglassen"],
  [/^the (?:job|machine) '(.*)' is in (\w+) too/, "'$1' steht auch in $2"],
  [/^the (?:job|machine) has no name.*/, "der Name fehlt"],
  [/^'(.*)' may be (\d+), or have decimals.*/, "'$1' kann $2 sein oder Nachkommastellen haben: Dezimalzeichen wählen"],
  [/^'(.*)' is not a shift.*/, "'$1' ist keine Schicht wie 06:00-14:00"],
  [/^the shift '(.*)' (starts|has).*/, "die Schicht '$1' hat keine Länge: ein ganzer Tag ist 00:00-24:00"],
  [/^shifts overlap on (.*) at (.*)/, "Schichten überschneiden sich: $1, $2"],
  [/^'(.*)' is not a day of the week.*/, "'$1' ist kein Wochentag wie Mo, und nicht wie Mo-Fr"],
  [/^('.*' has the same day|the day .* is there) twice.*/, "ein Wochentag steht zweimal da"],
  [/^'(.*)' is not a (date|first and).*/, "'$1' ist kein Datum wie 24.12.2026, und nicht wie 24.12.2026-01.01.2027"],
  [/.* is more than ten years after the begin/, "die Feiertage liegen mehr als zehn Jahre nach dem Arbeitsbeginn"],
  [/.*, which dates need: .*/, "Termine brauchen eine Einheit der Zeiten: min, h, s oder d"],
  [/^what has begun and ended.*/, "was begonnen und geendet hat, plant pfs-plan --now: hier ohne diese Spalten"],
  [/^no job of the table is named.*/, "Kein Auftrag der Tabelle ist in dieser Reihenfolge."],
  [/.* needs "Work begins", .*/, "Bitte bei „Termine und Schichten“ den Arbeitsbeginn eintragen."],
  [/^([\d,]+) times?( of formulas)? rounded to (\d) decimals?, by (\S+) at most (\(.*\))/,
   "gerundete Zeiten: $1, auf Nachkommastellen: $3, höchstens um $4 $5"],
  [/^(the server (is busy|has too)|too many searches).*/, "der Server ist ausgelastet: bitte bald noch einmal"],
  [/^The token is missing or wrong.*/, "In der Adresse fehlt das Kennwort: bitte nach der ganzen Adresse fragen."],
];
export const language = localStorage.getItem("language") || (navigator.language.startsWith("de") ? "de" : "en");
// A text of the page in its language, with values in place of {names}.
export function tr(text, values = {}) {
  return (language === "de" && GERMAN[text] || text).replace(/\{(\w+)\}/g, (_, name) => values[name] ?? `{${name}}`);
}
// What the server says.
export function fault(text) {
  const [, own, more] = /^(.*?)(?: \(and (\d+) more cells? of the column\))?$/s.exec(text);
  const found = language === "de" && FAULTS.find(([pattern]) => pattern.test(own));
  return found ? own.trim().replace(...found) + (more ? ` (und ${more} weitere in der Spalte)` : "") : text;
}
document.documentElement.lang = language;
const texts = document.createTreeWalker(document.documentElement, NodeFilter.SHOW_TEXT);
while (texts.nextNode()) {
  const own = texts.currentNode.data, known = own.trim().replace(/\s+/g, " ");
  if (GERMAN[known]) texts.currentNode.data = own.replace(own.trim(), tr(known));
}
for (const name of ["aria-label", "title"])
  for (const each of document.querySelectorAll(`[${name}]`)) each.setAttribute(name, tr(each.getAttribute(name)));
const choice = document.getElementById("language");
choice.value = language;
choice.onchange = () => { localStorage.setItem("language", choice.value); location.reload(); };
