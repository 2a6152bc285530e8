"use strict";
// Shows each picture of the bus. What comes from the bus is text, and never markup.
const LAMPS = { stop: "stop (red)", amber: "amber", mil: "MIL", protect: "protect" };

function element(name, text, className) {
  const made = document.createElement(name);
  if (text) made.textContent = text;
  if (className) made.className = className;
  return made;
}

// A time of the log, by this machine's clock where it counts from 1970.
function time(text) {
  if (text === null) return "";
  const seconds = Number(text);
  return seconds > 1e8 && seconds < 2e11 ? new Date(seconds * 1000).toLocaleTimeString() : text;
}

function codes(cell, message, word) {
  if (!message) return;
  if (message.partly) cell.append(element("div", word + (message.codes.length ? "" : "no readable code, ") + "read in part", "soft"));
  for (const code of message.codes) {
    const times = code.count === null ? "" : ", " + code.count + (code.count === 1 ? " time" : " times");
    cell.append(element("div", word + code.spn + "/" + code.fmi + (code.text ? " " + code.text : "") + times + ", since " + (time(code.since) || "?")));
  }
  if (message.more) cell.append(element("div", "and " + message.more + " more"));
  if (message.contested && message.codes.length) cell.append(element("div", "contested: it may be of another unit", "soft"));
}

function row(unit, severalBuses) {
  const made = element("tr", "", "silent" in unit ? "gone" : "");
  const who = element("td");
  if (unit.text) who.append(element("b", unit.text), element("br"));
  who.append(element("span", unit.name || "address " + unit.address + ", no claim seen" + (unit.gaps ? " since gap " + unit.gaps : ""), "name"));
  if (unit.name) {
    const words = "function" in unit ? "function " + unit.function + " instance " + unit.instance + ", manufacturer " + unit.manufacturer + "; " : "";
    who.append(element("div", words + (unit.address === null ? "address not known" : "address " + unit.address), "soft"));
  }
  if (severalBuses) who.append(element("div", "bus " + unit.bus, "soft"));
  const lamps = element("td"), now = element("td"), others = element("td");
  if (unit.dm1) {
    for (const lamp of unit.dm1.lamps) lamps.append(element("span", LAMPS[lamp], "lamp " + lamp));
    codes(now, unit.dm1, "");
    if (!unit.dm1.codes.length && !unit.dm1.partly) now.append(element("span", "no code", "soft"));
  } else now.append(element("span", "not heard", "soft"));
  if ("silent" in unit) now.append(element("div", "not heard for the last " + unit.silent + " s: it may be gone"));
  codes(others, unit.dm2, "before ");
  codes(others, unit.dm6, "pending ");
  made.append(who, lamps, now, others);
  return made;
}

function show(picture) {
  const is = id => document.getElementById(id);
  const faulty = picture.rows.filter(unit => unit.dm1 && !("silent" in unit) && (unit.dm1.lamps.length || unit.dm1.codes.length)).length;
  const partly = picture.rows.filter(unit => unit.dm1 && !("silent" in unit) && unit.dm1.partly).length;
  const units = faulty + " of " + picture.rows.length + " units with faults now" + (partly ? ", " + partly + " read in part" : "");
  const heading = picture.lines === 0 && !picture.ended ? "Waiting for the bus .." : units;
  if (is("now").textContent !== heading) is("now").textContent = heading;
  is("ended").hidden = picture.ended === null;
  is("ended").textContent = picture.ended === null ? "" : "The bus is not followed any more: " + picture.ended + ". This is how it stood.";
  const quiet = picture.quiet > 2 && picture.ended === null ? "; nothing for the last " + picture.quiet + " s" : "";
  is("state").textContent = picture.lines + " lines read, " + picture.missed + " frames missed, " + picture.unread + " messages unread" + quiet;
  const buses = new Set(picture.rows.map(unit => unit.bus));
  is("rows").replaceChildren(...picture.rows.map(unit => row(unit, buses.size > 1)));
  is("more").textContent = picture.more ? picture.more + " further units are not shown" : "";
}

const events = new EventSource("/events");
events.onmessage = event => show(JSON.parse(event.data));
events.onerror = () => {
  document.getElementById("ended").hidden = false;
  document.getElementById("ended").textContent = "The server does not answer; this is how it stood.";
};
