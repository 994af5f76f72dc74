"use strict";
// Chooses which of the page's pictures are seen. Every figure is a text and every picture is there already.
(function () {
  var body = document.body;
  var chosen = { period: body.dataset.period, zone: body.dataset.zone };

  function all(selector) {
    return Array.prototype.slice.call(document.querySelectorAll(selector));
  }

  var pictures = all("[data-when-period]");
  var places = all("[data-pick-period], [data-pick-zone]");
  var periods = document.getElementById("periods");

  function button(period) {
    return periods.querySelector('[data-pick-period="' + period + '"]');
  }

  function show(element) {
    var zone = element.dataset.whenZone;
    element.hidden = element.dataset.whenPeriod !== chosen.period || (zone !== undefined && zone !== chosen.zone);
  }

  function highlight(element) {
    var inPeriod = element.dataset.pickPeriod === chosen.period;
    var inZone = element.dataset.pickZone === chosen.zone;
    element.classList.toggle("in-period", inPeriod);
    element.classList.toggle("in-zone", inZone);
    if (element.tagName === "BUTTON") {
      element.setAttribute("aria-pressed", String(inPeriod || inZone));
    }
  }

  // scrolls what is narrower than its inside, so that the element is in its middle
  function centre(box, element) {
    if (box && element) {
      var outer = box.getBoundingClientRect(), inner = element.getBoundingClientRect();
      box.scrollLeft += inner.left + inner.width / 2 - outer.left - outer.width / 2;
    }
  }

  function centreAll() {
    var network = document.querySelector("#network > :not([hidden]) > .scroll");
    centre(periods, button(chosen.period));
    centre(document.querySelector("#prices .scroll"), document.querySelector("#prices thead .in-period"));
    centre(network, network.querySelector(".place") || network.querySelector(".in-zone"));
  }

  function draw() {
    pictures.forEach(show);
    places.forEach(highlight);
    centreAll();
    document.getElementById("period").textContent = chosen.period;
    var current = button(chosen.period);
    document.getElementById("previous").disabled = !current.previousElementSibling;
    document.getElementById("next").disabled = !current.nextElementSibling;
  }

  function choose(period, zone) {
    chosen = { period: period, zone: zone };
    draw();
    history.replaceState(null, "", "#period=" + period + "&zone=" + zone);
  }

  function move(which) {
    var other = button(chosen.period)[which];
    if (other) {
      choose(other.dataset.pickPeriod, chosen.zone);
    }
  }

  // "#period=7&zone=2", where the day has them
  function fromLink() {
    var words = new URLSearchParams(location.hash.slice(1));
    var period = words.get("period"), zone = words.get("zone");
    if (period !== null && /^[0-9]+$/.test(period) && button(period)) {
      chosen.period = period;
    }
    if (zone !== null && /^[0-9]+$/.test(zone) && document.querySelector('.zones [data-pick-zone="' + zone + '"]')) {
      chosen.zone = zone;
    }
    draw();
  }

  document.addEventListener("click", function (event) {
    var target = event.target.closest("[data-pick-period], [data-pick-zone]");
    if (target) {
      choose(target.dataset.pickPeriod || chosen.period, target.dataset.pickZone || chosen.zone);
    }
  });
  document.getElementById("previous").addEventListener("click", function () { move("previousElementSibling"); });
  document.getElementById("next").addEventListener("click", function () { move("nextElementSibling"); });
  document.addEventListener("keydown", function (event) {
    if (event.altKey || event.ctrlKey || event.metaKey || event.shiftKey) {
      return;
    }
    if (event.key === "ArrowLeft") {
      move("previousElementSibling");
    } else if (event.key === "ArrowRight") {
      move("nextElementSibling");
    } else {
      return;
    }
    event.preventDefault();
  });
  window.addEventListener("hashchange", fromLink);
  window.addEventListener("resize", centreAll);

  body.classList.remove("still");
  fromLink();
}());
