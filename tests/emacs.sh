#!/usr/bin/env bash
# Emacs's own ispell.el and flyspell over `examples/ispell-face`, with the sample's dictionary, in batch mode: which words are marked,
# where, and which are asked about; and a personal word that is kept. Needs Emacs and Python 3, and is skipped without; the program is ./affedit, or
# that of AFFEDIT. Prints what differs; the status is 0 where nothing does.
set -euo pipefail
top=$(cd "$(dirname "$0")/.." && pwd)
# shellcheck source=tests/skips.bash
. "$top/tests/skips.bash"
needs emacs python3
# Nothing is built here.
export AFFEDIT_NO_BUILD=1
[ -n "${AFFEDIT-}" ] || "$top/tests/program" > /dev/null
work=$(mktemp -d)
trap 'rm -rf "$work"' EXIT
# The set-up of docs/PIPE.md.
"$top/examples/ispell-face" --emacs "$top/examples/sample.aff" "$top/examples/sample.dic" > "$work/set-up.el"
cat > "$work/try.el" << 'LISP'
(require 'cl-lib)
(require 'ispell)
(require 'flyspell)
(defvar work (getenv "WORK"))
(load (concat work "/set-up.el") nil t)
(setq ispell-personal-dictionary (concat work "/personal")
      flyspell-issue-message-flag nil
      inhibit-message t)

(defun told (what words) (princ (format "%s: %s\n" what (if words (mapconcat #'identity words ", ") "none"))))

(defun marked ()
  "The words that flyspell has marked, each with the places of its ends."
  (let ((marks (seq-filter #'flyspell-overlay-p (overlays-in (point-min) (point-max)))))
    (prog1
        (mapcar (lambda (mark)
                  (let ((from (overlay-start mark)) (to (overlay-end mark)))
                    (format "%d-%d %s" from to (buffer-substring-no-properties from to))))
                (sort marks (lambda (one other) (< (overlay-start one) (overlay-start other)))))
      (flyspell-delete-all-overlays))))

(defun asked (answers)
  "The words that are asked about, each of which becomes what ANSWERS has for it."
  (let (words)
    (cl-letf (((symbol-function 'ispell-command-loop)
               (lambda (_miss _guess word &rest _) (push word words) (cdr (assoc word answers)))))
      (ispell-region (point-min) (point-max)))
    (nreverse words)))

(with-temp-buffer
  (insert "\u00e9t\u00e9 the citys reads\n*who rereads !foxes\n^order 12 in\nisn\u2019t 4nd 2nd\n")
  (flyspell-mode 1)
  (flyspell-region (point-min) (point-max))
  (told "a small region" (marked))
  (setq flyspell-large-region 1)
  (flyspell-region (point-min) (point-max))
  (told "a large region" (marked))
  (goto-char 13)
  (flyspell-word)
  (told "a word" (marked))
  (told "asked" (asked '(("citys" . "cities"))))
  (told "a line" (list (buffer-substring-no-properties 1 (progn (goto-char 1) (line-end-position)))))
  (ispell-send-string "@foxes\n")
  (told "asked behind a word of the session" (asked nil))
  (ispell-send-string "*\u00e9t\u00e9\n")
  (setq ispell-pdict-modified-p t)
  (ispell-pdict-save t t)
  ;; An answer shows that the words are kept: the process would be killed before.
  (told "asked behind a personal word" (asked nil))
  (ispell-kill-ispell t)
  (told "asked with a personal word" (asked nil)))
LISP
cat > "$work/wanted" << 'WANTED'
a small region: 1-4 été, 9-14 citys, 35-40 foxes, 54-59 isn’t, 60-63 4nd
a large region: 1-4 été, 9-14 citys, 35-40 foxes, 54-59 isn’t, 60-63 4nd
a word: 9-14 citys
asked: été, citys, foxes, isn’t, 4nd
a line: été the cities reads
asked behind a word of the session: été, isn’t, 4nd
asked behind a personal word: isn’t, 4nd
asked with a personal word: foxes, isn’t, 4nd
WANTED
mkdir "$work/home"
HOME=$work/home WORK=$work LC_ALL=C.UTF-8 emacs --batch -Q -l "$work/try.el" > "$work/told" 2> "$work/errors" || { cat "$work/errors"; exit 1; }
diff "$work/wanted" "$work/told"
