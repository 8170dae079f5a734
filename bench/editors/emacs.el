;;; emacs.el --- The time from a key to its marks, in Emacs  -*- lexical-binding: t -*-

;; Types KEYS keys at the end of a line in the middle of the file TEXT, and writes to REPORT the median time from a key to the end of the
;; redisplay that has its marks.  KIND is `affedit', `marks', `flyspell' or `plain'.  For `flyspell' only spaces count: it checks a word behind
;; them.  For `marks' the overlays of the mode stay when it is gone: nothing touches them, so that all the time is Emacs's own.

(setq inhibit-startup-screen t make-backup-files nil auto-save-default nil create-lockfiles nil)
;; Nothing is compiled beside what is measured: the mode is byte code.
(setq native-comp-deferred-compilation nil native-comp-jit-compilation nil)
(setenv "XDG_DATA_HOME" (getenv "WORK"))
(add-to-list 'load-path (getenv "COMPILED"))
(defvar kind (intern (getenv "KIND")))
(defvar keys (string-to-number (getenv "KEYS")))
(defvar typed (apply #'concat (make-list 100 " people qzpeople houses wrqld")))
(defvar at 0)
(defvar sent nil)
(defvar times nil)
(defvar note "")
(find-file (getenv "TEXT"))
(text-mode)
(auto-fill-mode -1)
(goto-char (point-min))
(forward-line (/ (count-lines (point-min) (point-max)) 2))
(end-of-line)

(defun report ()
  (let ((sorted (sort times #'<)))
    (with-temp-file (getenv "REPORT")
      (insert (format "GNU Emacs %s, %s: median %.2f ms, one in ten below %.2f ms, nine below %.2f ms, of %d keys%s\n"
                      emacs-version (getenv "NAME")
                      (nth (/ (length sorted) 2) sorted) (nth (/ (length sorted) 10) sorted)
                      (nth (/ (* 9 (length sorted)) 10) sorted) (length sorted) note))))
  (set-buffer-modified-p nil)
  (let ((kill-emacs-hook nil))
    (kill-emacs 0)))

(defun key ()
  (let ((char (aref typed at)))
    (setq at (1+ at) sent (float-time))
    (push char unread-command-events)
    ;; Flyspell says nothing of a letter, so that nothing is waited for.
    (when (and (eq kind 'flyspell) (not (eq char ?\s)))
      (setq sent nil)
      (run-with-timer 0.015 nil #'key))))

(defun shown ()
  "The marks of the last key are made: draw them, and go on."
  (when sent
    (redisplay)
    (push (* 1000 (- (float-time) sent)) times)
    (setq sent nil)
    (if (>= (length times) keys)
        (report)
      (run-with-timer 0.015 nil #'key))))

(defun mark-alone ()
  "Make overlays like those that the mode has on the screen, without it."
  (let (bounds)
    (dolist (overlay (overlays-in (point-min) (point-max)))
      (when (overlay-get overlay 'affedit)
        (push (cons (overlay-start overlay) (overlay-end overlay)) bounds)))
    (affedit-mode -1)
    (dolist (pair bounds)
      (let ((overlay (make-overlay (car pair) (cdr pair))))
        (overlay-put overlay 'evaporate t)
        (overlay-put overlay 'face 'affedit-mark)))
    (setq note (format "; %d overlays" (length bounds)))
    (add-hook 'post-command-hook #'shown 90 t)))

;; Where it has to find the direction of a paragraph, Emacs draws the whole window for each key.
(when (equal (getenv "DIRECTION") "left-to-right")
  (setq bidi-paragraph-direction 'left-to-right))
(pcase kind
  ((or 'affedit 'marks)
   (require 'affedit)
   (setq affedit-program (getenv "PROGRAM") affedit-dictionary (getenv "DICTIONARY"))
   (let ((began (float-time)))
     (affedit-mode 1)
     (while (not (affedit--idle-p))
       (accept-process-output nil 0.001))
     (setq note (format "; all lines known in %.0f ms, %d marks" (* 1000 (- (float-time) began)) (length (affedit--list)))))
   (if (eq kind 'marks)
       (run-with-timer 0.3 nil #'mark-alone)
     (advice-add 'affedit--receive :after
                 (lambda (_speller texts _answers)
                   (when (member (buffer-substring-no-properties (line-beginning-position) (line-end-position)) texts)
                     (shown))))))
  ('flyspell
   (require 'flyspell)
   (setq ispell-program-name "hunspell" ispell-dictionary "en_US")
   (flyspell-mode 1)
   (when (getenv "WHOLE")
     (let ((began (float-time)))
       (flyspell-buffer)
       (setq note (format "; flyspell-buffer in %.0f ms" (* 1000 (- (float-time) began))))))
   (advice-add 'flyspell-word :after (lambda (&rest _) (shown))))
  ('plain
   (add-hook 'post-command-hook #'shown 90 t)))
(run-with-timer (if (eq kind 'marks) 0.8 0.5) nil #'key)
