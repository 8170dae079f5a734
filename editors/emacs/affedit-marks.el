;;; affedit-marks.el --- The marks of lines, and how they are drawn  -*- lexical-binding: t -*-

;;; Commentary:

;; Marks are bytes of a line, and overlays stand at those that are in scope, on the lines that were on the screen.

;;; Code:

(require 'affedit-program)
(require 'affedit-scope)

(defface affedit-mark '((((supports :underline (:style wave))) :underline (:style wave :color "red"))
                        (t :underline t :foreground "red"))
  "A word that the dictionary does not generate."
  :group 'affedit)

(defconst affedit--most-searched 20000 "A window with more characters is looked at line by line.")
(defconst affedit--most-overlays 3000
  "With more overlays than these those that are not visible are deleted, since they make Emacs slow.")

(defvar-local affedit--speller nil "What the buffer is checked by.")
(defvar-local affedit--made 0 "How many overlays were made since some were deleted.")

;; Lines and their marks.

(defmacro affedit--widened (&rest body)
  "Do BODY in the whole buffer, with point and match data kept."
  (declare (indent 0))
  `(save-excursion
     (save-restriction
       (widen)
       (save-match-data ,@body))))

(defun affedit--text ()
  "The text of the line at point."
  (buffer-substring-no-properties (line-beginning-position) (line-end-position)))

(defun affedit--known (text)
  "The answer to TEXT in this buffer, or `unknown'."
  (affedit--recall affedit--speller text))

(defun affedit--place (line byte)
  "The position of BYTE of the line that begins at LINE.
The buffer keeps characters as UTF-8, so its own bytes count as those of the text."
  (byte-to-position (+ (position-bytes line) byte)))

(defun affedit--shown (answer)
  "What of ANSWER, to the line at point, is in the scope of the buffer."
  (if (or (not (consp answer)) (eq affedit-scope 'all))
      answer
    (let ((marks (affedit--prose-marks (affedit--text) answer)) (line (line-beginning-position)))
      (if (not affedit--predicate)
          marks
        (cl-remove-if-not (lambda (mark) (affedit--verified-p (affedit--place line (cdr mark)))) marks)))))

(defun affedit--overlays-here ()
  "The marks that begin in the line at point, by their places."
  (let ((end (line-end-position)))
    (sort (cl-remove-if-not (lambda (overlay)
                              (and (overlay-get overlay 'affedit) (<= (overlay-start overlay) end)))
                            (overlays-in (line-beginning-position) (1+ end)))
          (lambda (one two) (< (overlay-start one) (overlay-start two))))))

(defun affedit--put-overlay (overlay beg end)
  "Have OVERLAY, or a new one, at BEG to END."
  (if overlay
      (move-overlay overlay beg end)
    (setq overlay (make-overlay beg end)
          affedit--made (1+ affedit--made))
    (overlay-put overlay 'affedit t)
    (overlay-put overlay 'evaporate t)
    (overlay-put overlay 'face 'affedit-mark)))

(defun affedit--paint (answer)
  "Have overlays at the marks ANSWER of the line at point that are in scope, and nowhere else in it.
Those that are right already are left alone, since Emacs draws the whole window anew for each change of one."
  (let ((line (line-beginning-position)) (there (affedit--overlays-here)) spare missing)
    (dolist (mark (and (listp answer) (affedit--shown answer)))
      (let ((beg (affedit--place line (car mark))) (end (affedit--place line (cdr mark))))
        (while (and there (< (overlay-start (car there)) beg))
          (push (pop there) spare))
        (if (and there (= beg (overlay-start (car there))) (= end (overlay-end (car there))))
            (pop there)
          (push (cons beg end) missing))))
    (setq spare (nconc there spare))
    (dolist (bounds missing)
      (affedit--put-overlay (pop spare) (car bounds) (cdr bounds)))
    (mapc #'delete-overlay spare)))

(defun affedit--each-visible (function)
  "Call FUNCTION at each visible line of each window of the buffer.
Before a window is drawn Emacs does not know where it ends, so that no more lines are taken than a window can have."
  (affedit--widened
    (dolist (window (get-buffer-window-list nil nil t))
      (goto-char (window-start window))
      (forward-line 0)
      (let ((end (min (window-end window) (point-max)))
            (left (1+ (window-total-height window))) (go t))
        (while (and go (> left 0) (<= (point) end))
          (unless (invisible-p (point))
            (setq left (1- left)))
          (funcall function)
          (setq go (and (= 0 (forward-line 1)) (bolp))))))))

;; One text is answered behind each key: Emacs's own search finds its lines sooner than a look at all of them.
(defun affedit--paint-visible (texts answers)
  "Mark the visible lines of the buffer that are among TEXTS; ANSWERS is a table of what was answered of them."
  (let* ((windows (get-buffer-window-list nil nil t)) (window (car windows)) (text (car texts)))
    (when window
      (if (or (cdr texts) (cdr windows) (equal text "")
              (> (- (window-end window) (window-start window)) affedit--most-searched))
          (affedit--each-visible
           (lambda ()
             (let ((answer (gethash (affedit--text) answers 'unknown)))
               (unless (eq answer 'unknown)
                 (affedit--paint answer)))))
        (affedit--widened
          (goto-char (min (window-end window) (point-max)))
          (let ((case-fold-search nil) (last (line-end-position)))
            (goto-char (window-start window))
            (forward-line 0)
            ;; Before a window is drawn its end may be before its start.
            (while (and (< (point) last) (search-forward text last t))
              (when (equal text (affedit--text))
                (affedit--paint (gethash text answers))))))))))

(defun affedit--delete-overlays (beg end)
  "Delete the marks between BEG and END."
  (dolist (overlay (overlays-in beg end))
    (when (overlay-get overlay 'affedit)
      (delete-overlay overlay))))

(defun affedit--purge ()
  "Delete the overlays outside what is visible, where there are many; what comes into view is marked again."
  (when (> affedit--made affedit--most-overlays)
    (setq affedit--made 0)
    (affedit--widened
      (let (ranges (from (point-min)))
        (dolist (window (get-buffer-window-list nil nil t))
          (push (cons (window-start window) (max (window-start window) (window-end window))) ranges))
        (dolist (range (append (sort ranges #'car-less-than-car) (list (cons (point-max) nil))))
          (when (< from (car range))
            (affedit--delete-overlays from (car range))
            (jit-lock-refontify from (car range)))
          (setq from (max from (or (cdr range) from))))
        (setq affedit--made (cl-count-if (lambda (overlay) (overlay-get overlay 'affedit))
                                         (overlays-in (point-min) (point-max))))))))

(provide 'affedit-marks)

;; Local Variables:
;; byte-compile-docstring-max-column: 160
;; End:

;;; affedit-marks.el ends here
