;;; emacs.el --- The mode as a user has it who loads it by its name  -*- lexical-binding: t -*-

;; Which launcher it found, how many marks the sample has, and what is told of a launcher that is not there.  The environment has
;; SAMPLE, the dictionary and the text, without `.aff', `.dic' and `.txt'.

(require 'affedit)
(defvar sample (getenv "SAMPLE"))
(defvar told nil)
(advice-add 'affedit--tell :override (lambda (&rest words) (push (apply #'format words) told)))

(defun say (text) (princ (concat text "\n")))

(defun wait (condition)
  "Wait until CONDITION holds, a minute at most."
  (let ((until (+ (float-time) 60)))
    (while (not (or (funcall condition) (> (float-time) until)))
      (accept-process-output nil 0.01))))

(setenv "XDG_DATA_HOME" (expand-file-name "data" (getenv "HOME")))
(say affedit-program)
(setq affedit-dictionary sample)
(find-file (concat sample ".txt"))
(affedit-mode 1)
(wait #'affedit--idle-p)
(say (format "%d marks in %d lines" (plist-get (affedit--count) :marks) (plist-get (affedit--count) :lines)))
(mapc #'say told)
(setq affedit-program "/nowhere/affedit" told nil)
(affedit-restart)
(wait (lambda () told))
(mapc #'say (reverse told))
