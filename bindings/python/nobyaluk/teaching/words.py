"""The words of sheets and keys in English, German and French.

bindings/wasm/texts.tsv has the words of the browser page.
"""
import re

LANGUAGES = ("en", "de", "fr")
_THOUSANDS = {"en": ",", "de": ".", "fr": "\u202f"}
_COLON = {"en": ":", "de": ":", "fr": "\u00a0:"}
_SOFT = {
    "Eingang": "Ein\u00adgang",
    "Auffahrt": "Auf\u00adfahrt",
    "Schlange": "Schlan\u00adge",
    "Bestand": "Be\u00adstand",
}  # where a narrow column breaks a word

_WORDS = {
    "exercise": ("Exercise", "Übung", "Exercice"),
    "key": ("Key", "Lösung", "Corrigé"),
    "name": ("Name", "Name", "Nom"),
    "id": ("No.", "Nr.", "N°"),
    "seed": (
        "Seed {seed}, {cells}, {steps}",
        "Startzahl {seed}, {cells}, {steps}",
        "Graine {seed}, {cells}, {steps}",
    ),
    "shape": ("{cells}, {steps}", "{cells}, {steps}", "{cells}, {steps}"),
    "seconds": (
        "One step is {x}\u00a0s.",
        "Ein Schritt dauert {x}\u00a0s.",
        "Un pas dure {x}\u00a0s.",
    ),
    "cells": ("{x} cells", "{x} Zellen", "{x} cellules"),
    "cells.one": ("1 cell", "1 Zelle", "1 cellule"),
    "steps": ("{x} steps", "{x} Schritte", "{x} pas"),
    "steps.one": ("1 step", "1 Schritt", "1 pas"),
    "question": (
        (
            "This carriageway, these arrivals and these releases are given. Compute the total time"
            " spent, and state whose waiting it counts."
        ),
        (
            "Gegeben sind diese Richtungsfahrbahn, diese Ankünfte und diese Freigaben der"
            " Zuflussregelung. Berechnen Sie die Gesamtaufenthaltszeit und geben Sie an, wessen"
            " Wartezeit sie zählt."
        ),
        (
            "Cette chaussée, ces arrivées et ces débits autorisés par la régulation d’accès sont"
            " donnés. Calculez le temps total passé et dites l’attente de qui il compte."
        ),
    ),
    "road": ("The carriageway", "Die Richtungsfahrbahn", "La chaussée"),
    "inflow": (
        "Arrivals and releases in each step",
        "Ankünfte und Freigaben in jedem Schritt",
        "Arrivées et débits autorisés à chaque pas",
    ),
    "works": (
        "Capacity where lanes are closed",
        "Kapazität bei gesperrten Fahrstreifen",
        "Capacité quand des voies sont fermées",
    ),
    "works.steps": ("steps", "Schritte", "pas"),
    "units": (
        "All counts are in thousandths of a vehicle: 1,000 are one vehicle. Write whole numbers.",
        (
            "Alle Anzahlen sind in Tausendstel Fahrzeugen: 1.000 sind ein Fahrzeug. Schreiben Sie"
            " ganze Zahlen."
        ),
        (
            "Tous les effectifs sont en millièmes de véhicule : 1\u202f000 font un véhicule."
            " Écrivez des nombres entiers."
        ),
    ),
    "rules": ("The rules", "Die Regeln", "Les règles"),
    "rule.demand": (
        (
            "Demand of a cell: the smaller of C and v × held ÷ 1,000, rounded down. Of the gate:"
            " the smaller of C and its queue."
        ),
        (
            "Nachfrage einer Zelle: der kleinere Wert von C und v × Bestand ÷ 1.000, abgerundet."
            " Nachfrage am Eingang: der kleinere Wert von C und der Schlange dort."
        ),
        (
            "Demande d’une cellule : la plus petite valeur de C et de v × effectif ÷ 1\u202f000,"
            " arrondi vers le bas. Demande à l’entrée : la plus petite valeur de C et de la file."
        ),
    ),
    "rule.supply": (
        (
            "Supply of a cell: the smaller of C and w × (J − held) ÷ 1,000, rounded down. Its room"
            " is what the release leaves of the supply."
        ),
        (
            "Angebot einer Zelle: der kleinere Wert von C und w × (J − Bestand) ÷ 1.000,"
            " abgerundet. Ihr freier Platz ist, was die Freigabe vom Angebot übrig lässt."
        ),
        (
            "Offre d’une cellule : la plus petite valeur de C et de w × (J − effectif) ÷"
            " 1\u202f000, arrondi vers le bas. Sa place libre est ce que le débit autorisé laisse"
            " de l’offre."
        ),
    ),
    "rule.outflow": (
        (
            "Each place sends as much as it can: at most its demand, and what enters the next cell"
            " is at most that cell’s room. Entering is the growth of ⌊b × F ÷ 1,000⌋ (rounded"
            " down), where F sums the place’s outflows since step 0. All that leaves the gate"
            " enters cell 1; all that leaves the last cell leaves the road."
        ),
        (
            "Jeder Ort gibt so viel ab, wie er kann: höchstens seine Nachfrage, und was in die"
            " nächste Zelle einfährt, ist höchstens deren freier Platz. Was einfährt, ist der"
            " Zuwachs von ⌊b × F ÷ 1.000⌋ (abgerundet); F ist die Summe der Abflüsse des Orts seit"
            " Schritt 0. Vom Eingang fährt alles in Zelle 1; aus der letzten Zelle verlässt alles"
            " die Strecke."
        ),
        (
            "Chaque lieu envoie autant qu’il peut : au plus sa demande, et ce qui entre dans la"
            " cellule suivante est au plus la place libre de celle-ci. Ce qui entre est"
            " l’accroissement de ⌊b × F ÷ 1\u202f000⌋ (arrondi vers le bas), où F est la somme des"
            " flux sortants du lieu depuis le pas 0. Tout ce qui quitte l’entrée va dans la cellule"
            " 1 ; tout ce qui quitte la dernière cellule quitte la route."
        ),
    ),
    "rule.next": (
        (
            "All values are those of the state before the step. Then: held + entering + release −"
            " outflow; queue + arrivals − release; at the gate queue + arrivals − outflow."
        ),
        (
            "Alles folgt aus dem Zustand vor dem Schritt. Danach gilt: Bestand + einfahrend +"
            " Freigabe − Abfluss; Schlange + Ankünfte − Freigabe; am Eingang Schlange + Ankünfte −"
            " Abfluss."
        ),
        (
            "Tout se calcule à partir de l’état avant le pas. Ensuite : effectif + entrants + débit"
            " autorisé − flux sortant ; file + arrivées − débit autorisé ; à l’entrée file +"
            " arrivées − flux sortant."
        ),
    ),
    "answers": ("Your answers", "Ihre Antworten", "Vos réponses"),
    "answers.key": ("The answers", "Die Antworten", "Les réponses"),
    "place": ("place", "Ort", "lieu"),
    "gate": ("gate", "Eingang", "entrée"),
    "cell": ("cell {x}", "Zelle {x}", "cellule {x}"),
    "ramp": ("ramp {x}", "Auffahrt {x}", "rampe {x}"),
    "on-ramp": ("on-ramp", "Auffahrt", "rampe d’accès"),
    "off-ramp": ("off-ramp", "Ausfahrt", "sortie"),
    "step": ("step", "Schritt", "pas"),
    "v": ("speed", "Geschwin\u00addigkeit", "vitesse"),
    "w": ("wave", "Stau\u00adwelle", "onde de con\u00adgestion"),
    "b": ("onward share", "Anteil, der weiterfährt", "part qui continue"),
    "J": ("jam count", "Höchst\u00adbestand", "effectif maximal"),
    "C": ("capacity", "Kapazität", "capacité"),
    "held": ("held at the start", "Bestand zu Beginn", "effectif au début"),
    "queue": ("queue at the start", "Schlange zu Beginn", "file au début"),
    "ramp.queue": (
        "ramp queue at the start",
        "Schlange der Auffahrt zu Beginn",
        "file de la rampe au début",
    ),
    "unit.count": ("10⁻³ veh", "10⁻³ Kfz", "10⁻³ véh"),
    "unit.flow": ("10⁻³ veh/step", "10⁻³ Kfz/Schritt", "10⁻³ véh/pas"),
    "unit.speed": ("10⁻³ cell/step", "10⁻³ Zellen/Schritt", "10⁻³ cellule/pas"),
    "unit.share": ("10⁻³", "10⁻³", "10⁻³"),
    "unit.time": ("10⁻³ veh × step", "10⁻³ Kfz × Schritt", "10⁻³ véh × pas"),
    "arrivals": ("arrivals", "Ankünfte", "arrivées"),
    "release": ("release", "Freigabe", "débit autorisé"),
    "outflow": ("outflow in the step", "Abfluss im Schritt", "flux sortant pendant le pas"),
    "after.held": ("held after the step", "Bestand nach dem Schritt", "effectif après le pas"),
    "after.queue": ("queue after the step", "Schlange nach dem Schritt", "file après le pas"),
    "times": ("Time spent", "Aufenthaltszeit", "Temps passé"),
    "time.gate": ("at the gate", "am Eingang", "à l’entrée"),
    "time.road": ("in the cells", "in den Zellen", "dans les cellules"),
    "time.ramp": ("at the on-ramps", "an den Auffahrten", "aux rampes d’accès"),
    "total": ("total time spent", "Gesamtaufenthaltszeit", "temps total passé"),
    "whose": (
        "Whose waiting does your total count?",
        "Wessen Wartezeit zählt Ihre Summe mit?",
        "L’attente de qui votre total compte-t-il ?",
    ),
    "whose.key": (
        (
            "Everyone in the system after each step: those at the gate, in the cells and at the"
            " on-ramps. Those present at the start count from step 0 on, by the state after it."
        ),
        (
            "Die aller im System nach jedem Schritt: am Eingang, in den Zellen und an den"
            " Auffahrten. Wer zu Beginn da ist, zählt ab Schritt 0, mit dem Zustand danach."
        ),
        (
            "Celle de tous ceux qui sont dans le système après chaque pas : à l’entrée, dans les"
            " cellules et aux rampes d’accès. Ceux qui sont présents au début comptent à partir du"
            " pas 0, par l’état qui le suit."
        ),
    ),
    "present": (
        "Who is present after each step",
        "Wer nach jedem Schritt da ist",
        "Qui est présent après chaque pas",
    ),
    "all": ("present", "im System", "présents"),
    "sum": ("sum", "Summe", "somme"),
    "running": ("total so far", "Summe bisher", "total jusqu’ici"),
    "hours": ("{x} vehicle-hours", "{x} Fahrzeugstunden", "{x} véhicules-heures"),
    "exits": ("left the road", "abgefahren", "sortis"),
    "wrong": (
        "Wrong totals, and what they come from",
        "Falsche Summen und woher sie kommen",
        "Totaux faux, et d’où ils viennent",
    ),
    "wrong.ramp": (
        "ramp queues left out",
        "Schlangen der Auffahrten weggelassen",
        "files des rampes oubliées",
    ),
    "wrong.gate": ("gate left out", "Eingang weggelassen", "entrée oubliée"),
    "wrong.cells": ("cells alone", "nur die Zellen", "cellules seules"),
    "wrong.start": ("start counted too", "Beginn mitgezählt", "état initial compté en plus"),
    "wrong.before": (
        "states before the steps summed",
        "Zustände vor den Schritten summiert",
        "états avant les pas additionnés",
    ),
    "wrong.alone": (
        "shares rounded step by step",
        "Anteile in jedem Schritt für sich gerundet",
        "parts arrondies pas par pas",
    ),
    "wrong.last": (
        "cells moved one after another, last first",
        "Zellen nacheinander gerechnet, die letzte zuerst",
        "cellules calculées l’une après l’autre, la dernière d’abord",
    ),
    "wrong.first": (
        "cells moved one after another, gate first",
        "Zellen nacheinander gerechnet, der Eingang zuerst",
        "cellules calculées l’une après l’autre, l’entrée d’abord",
    ),
    "form.unit": ("unit", "Einheit", "unité"),
    "form.parts": ("thousandths of a vehicle", "Tausendstel Fahrzeuge", "millièmes de véhicule"),
    "form.outflow": ("outflow", "Abfluss", "flux sortant"),
    "form.held": ("held", "Bestand", "effectif"),
    "form.queue": ("queue", "Schlange", "file"),
    "form.whose": ("whose waiting", "wessen Wartezeit", "l’attente de qui"),
    "made": (
        "Computed by Nobyaluk, whose engine is proved.",
        "Berechnet von Nobyaluk, dessen Rechenkern formal verifiziert ist.",
        "Calculé par Nobyaluk, dont le moteur est prouvé.",
    ),
    "drawing": (
        "Traffic flows from left to right.",
        "Der Verkehr fließt von links nach rechts.",
        "Le trafic va de gauche à droite.",
    ),
}


class Words:
    """The words of one language, and numbers as it writes them."""

    def __init__(self, language: str) -> None:
        self.language = language
        self.at = LANGUAGES.index(language)

    def __call__(self, key: str, **given: object) -> str:
        """Return the words of a key, with the values given."""
        words = _WORDS[key][self.at].format(**given)
        return (
            re.sub(" (?=[:;?!%])", "\u00a0", words) if self.language == "fr" else words
        )  # so that no line begins with one of these

    def many(self, x: int, key: str) -> str:
        """Return a count with its word: 1 cell, 4 cells."""
        return self(f"{key}.one") if x == 1 else self(key, x=x)

    def number(self, x: int) -> str:
        """Return a whole number in groups of three digits."""
        return f"{int(x):,}".replace(",", _THOUSANDS[self.language])

    def decimal(self, x: float, places: int) -> str:
        """Return a number with `places` decimals."""
        whole, _, rest = f"{x:,.{places}f}".partition(".")
        return (
            whole.replace(",", _THOUSANDS[self.language])
            + ("." if self.language == "en" else ",")
            + rest
        )

    @property
    def colon(self) -> str:
        """The colon; in French a blank precedes it."""
        return _COLON[self.language]

    def narrow(self, words: str) -> str:
        """Return words for a narrow column, with a hyphen where a word may break."""
        return (
            re.sub("|".join(_SOFT), lambda x: _SOFT[x[0]], words)
            if self.language == "de"
            else words
        )

    def all_of(self, key: str) -> tuple[str, ...]:
        """Return a word in every language."""
        return _WORDS[key]
