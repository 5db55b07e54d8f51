"use strict";
// The rates of the machine that the settings tell: comments of a fixed form, since the control has no use for them. Without one the guess
// that stands under the picture counts.
//
//     (rate 24000)     rapid traverse, in mm a minute
//     (change 1.5)     seconds for a new tool station
//     (spindle 0.8)    seconds until the spindle has another speed

const Rates = (() => {
  const FORM = /^\( *(rate|change|spindle) +(\d+(?:\.\d*)?) *\) *\r?$/gm;
  const FIELDS = { rate: "rapid", change: "change", spindle: "spindle" };
  const USUAL = { rate: 20000, change: 1, spindle: 0 };
  const SHOWN = { rate: 0.001, change: 1, spindle: 1 };               // the field of the rapid is in m a minute
  let isTold = false;                   // whether the fields have rates of settings

  /** The rates that a text of settings tells; of two of a kind the last. */
  const told = text => Object.fromEntries([...text.matchAll(FORM)].map(([, name, value]) => [name, Number(value)]));

  /** Puts the rates of the settings into the fields under the picture. Where they tell none, what a user put there stays. */
  function take(text) {
    const rates = told(text), isNow = Object.keys(rates).length > 0;
    if (isNow || isTold) {
      for (const [name, field] of Object.entries(FIELDS)) {
        $(field).value = String(Number(((rates[name] ?? USUAL[name]) * SHOWN[name]).toPrecision(9)));
        $(field).disabled = name in rates;
      }
    }
    isTold = isNow;
    $("rates-of").textContent = isNow ? "rates of the settings: rapid" : "guess with rapid";
  }

  return { take, told };
})();
