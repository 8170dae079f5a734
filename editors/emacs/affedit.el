;;; affedit.el --- Marks of misspelled words as they are typed, by Affedit  -*- lexical-binding: t -*-

;; Package-Requires: ((emacs "27.1"))

;;; Commentary:

;; `affedit-mode' marks, with overlays, the words that a Hunspell dictionary does not generate.  README.md tells how it
;; is set up and what it does.  What is on the screen is asked about first, and the rest of the buffer in batches.

;;; Code:

(require 'affedit-files)
(require 'affedit-marks)
(require 'affedit-program)
(require 'affedit-scope)

(require (quote subr-x))
(declare-function flymake-make-diagnostic "flymake")
(declare-function flymake-start "flymake")

(defgroup affedit nil "Marks of misspelled words, by Affedit." :group 'text)

(defun affedit--default-program ()
  "The launcher of the checkout or of the installation that this file belongs to; without one, `affedit'."
  (let ((here (file-name-directory (file-truename (or load-file-name buffer-file-name default-directory)))))
    ;; HERE is TOP/editors/emacs, or PREFIX/share/emacs/site-lisp.
    (or (cl-find-if (lambda (launcher) (and (file-regular-p launcher) (file-executable-p launcher)))
                    (list (expand-file-name "../../affedit" here) (expand-file-name "../../../bin/affedit" here)))
        "affedit")))

(defcustom affedit-program (affedit--default-program)
  "The launcher.
Without another value it is that of the checkout or of the installation that this file belongs to, else `affedit' on the PATH."
  :type 'file)

(defcustom affedit-dictionary "en_US"
  "The name of the dictionary, or a path of one of its two files.
A buffer may have its own, also by a local variable of its file.
`affedit-change-dictionary' chooses one for a buffer, `affedit-use-dictionary' for all others."
  :type 'string)
;;;###autoload
(put 'affedit-dictionary 'permanent-local t)
;; A path would have any file read.
;;;###autoload
(put 'affedit-dictionary 'safe-local-variable
     (lambda (name) (and (stringp name) (string-match-p "\\`[[:alnum:]][[:alnum:]_.@+-]*\\'" name))))

(defcustom affedit-own nil
  "The file of one personal list for all dictionaries, or nil for a list for each.
That of the dictionary NAME is `affedit/words.NAME' in the user's data folder."
  :type '(choice (const nil) file))

(defconst affedit--most-direct 8000
  "A change of at most so many characters is asked about at once.")
(defconst affedit--most-asked 1000
  "A request has at most so many lines, far fewer than the paragraphs that the program takes.")
(defconst affedit--patience 0.002
  "So many seconds are waited for the marks behind a command, so that Emacs draws the line once.")
(defconst affedit--batch-bytes 8192 "A batch asks about at most so many bytes.")
(defconst affedit--batch-lines 1000 "A batch looks at at most so many lines.")
(defvar affedit--most-diagnostics 5000 "Flymake is told of at most so many marks.")

(defvar affedit--timer nil "What asks about changes that no command made.")

(defvar-local affedit--dirty nil "The changed places (BEG . END).")
(defvar-local affedit--todo nil "The places (BEG . END) that are to be looked at in batches.")
(defvar-local affedit--end nil "A marker at the end of the buffer: where it is not there, Emacs has not moved what stands behind a change.")
(defvar-local affedit--told nil "Whether the user was told of a line that is not checked.")
(defvar-local affedit--report nil "The function that flymake waits for.")

;; Asking.

(defun affedit--want (text)
  "Have TEXT asked about, if it is not already."
  (let ((speller affedit--speller))
    (unless (or (affedit--speller-failed speller) (gethash text (affedit--speller-asked speller)))
      (puthash text t (affedit--speller-asked speller))
      (push text (affedit--speller-wanted speller)))))

(defun affedit--want-line ()
  "Have the line at point asked about where it is not known."
  (let ((text (affedit--text)))
    (when (eq (affedit--known text) 'unknown)
      (affedit--want text))))

(defun affedit--tell-of-refused ()
  "Tell once that this buffer has a line that is not checked."
  (unless affedit--told
    (let ((refused (plist-get (affedit--count) :first-refused)))
      (when refused
        (setq affedit--told t)
        (affedit--tell "line %d of %s is not checked: %s" (car refused) (buffer-name)
                       (if (equal (cdr refused) "Command") "it is not UTF-8"
                         "it has no space in 65,536 bytes"))))))

(defun affedit--each-buffer (speller function)
  "Call FUNCTION in each buffer that is checked by SPELLER."
  (dolist (buffer (affedit--speller-buffers speller))
    (when (buffer-live-p buffer)
      (with-current-buffer buffer
        (funcall function)))))

(defun affedit--receive (speller texts answers)
  "Keep ANSWERS of SPELLER to TEXTS, and mark what is visible of them; nil where the process ended."
  (let ((index 0) (refused nil) (now (make-hash-table :test #'equal)))
    (dolist (text texts)
      (remhash text (affedit--speller-asked speller))
      (when answers
        (let ((answer (aref answers index)))
          (affedit--remember speller text answer)
          (puthash text answer now)
          (when (stringp answer)
            (setq refused t)))
        (setq index (1+ index))))
    (when answers
      (affedit--each-buffer speller (lambda ()
                                      (affedit--paint-visible texts now)
                                      (affedit--purge)))
      (when refused
        (affedit--each-buffer speller #'affedit--tell-of-refused)))))

(defun affedit--send (speller)
  "Ask SPELLER about what is wanted, when the last such request is answered."
  (unless (or (affedit--speller-asking speller) (null (affedit--speller-wanted speller)) (affedit--speller-failed speller))
    (let* ((wanted (nreverse (affedit--speller-wanted speller)))
           (texts (cl-subseq wanted 0 (min affedit--most-asked (length wanted)))))
      (setf (affedit--speller-wanted speller) (nreverse (nthcdr affedit--most-asked wanted))
            (affedit--speller-asking speller) t)
      (affedit--ask speller texts
                    (lambda (answers)
                      (setf (affedit--speller-asking speller) nil)
                      (affedit--receive speller texts answers)
                      (affedit--go-on speller))))))

(defun affedit--go-on (speller)
  "Ask SPELLER about what is wanted, and about the next batch."
  (affedit--send speller)
  (affedit--scan speller))

(defun affedit--batch (buffer)
  "The texts of the next batch of BUFFER."
  (with-current-buffer buffer
    (affedit--widened
      (let ((bytes 0) (lines 0) (asked (affedit--speller-asked affedit--speller)) texts)
        (goto-char (min (car affedit--todo) (point-max)))
        (forward-line 0)
        (while (and affedit--todo (< bytes affedit--batch-bytes) (< lines affedit--batch-lines))
          (let ((text (affedit--text)))
            (when (and (eq (affedit--known text) 'unknown) (not (gethash text asked)))
              (puthash text t asked)
              (push text texts)
              (setq bytes (+ bytes (string-bytes text))))
            (setq lines (1+ lines))
            (if (and (= 0 (forward-line 1)) (bolp) (<= (point) (cdr affedit--todo)))
                (setcar affedit--todo (point))
              (setq affedit--todo nil))))
        (nreverse texts)))))

(defun affedit--waiting-buffer (speller)
  "A buffer of SPELLER with lines that are to be looked at, the current one first."
  (let ((buffers (affedit--speller-buffers speller)))
    (cl-find-if (lambda (buffer) (buffer-local-value 'affedit--todo buffer))
                (if (memq (current-buffer) buffers)
                    (cons (current-buffer) buffers)
                  buffers))))

(defun affedit--scan (speller)
  "Have SPELLER look at the lines that wait, a batch at a time."
  (setf (affedit--speller-buffers speller) (cl-delete-if-not #'buffer-live-p (affedit--speller-buffers speller)))
  (unless (or (affedit--speller-scanning speller) (affedit--speller-failed speller))
    (let ((buffer (affedit--waiting-buffer speller)))
      (if (not buffer)
          (when (affedit--rests-p speller)
            (affedit--each-buffer speller #'affedit--report-marks))
        (let ((texts (affedit--batch buffer)))
          (setf (affedit--speller-scanning speller) t)
          (if texts
              (affedit--ask speller texts
                            (lambda (answers)
                              (affedit--receive speller texts answers)
                              (affedit--scan-on speller)))
            (affedit--scan-on speller)))))))

(defun affedit--scan-on (speller)
  "Have SPELLER go on with the next batch, when what was typed has had its turn."
  (run-with-timer 0 nil (lambda ()
                          (setf (affedit--speller-scanning speller) nil)
                          (affedit--scan speller))))

;; Changes.

(defun affedit--moved (range beg end old-end)
  "RANGE after the places BEG to OLD-END became BEG to END."
  (let ((delta (- end old-end)))
    (cons (cond ((>= (car range) old-end) (+ (car range) delta))
                ((> (car range) beg) beg)
                (t (car range)))
          (cond ((>= (cdr range) old-end) (+ (cdr range) delta))
                ((> (cdr range) beg) end)
                (t (cdr range))))))

(defun affedit--after-change (beg end old-length)
  "Note that OLD-LENGTH characters became those of BEG to END."
  (let ((old-end (+ beg old-length)))
    (when affedit--todo
      (setq affedit--todo (affedit--moved affedit--todo beg end old-end)))
    (if affedit--dirty
        (let ((range (affedit--moved affedit--dirty beg end old-end)))
          (setq affedit--dirty (cons (min (car range) beg) (max (cdr range) end))))
      (setq affedit--dirty (cons beg end)))
    ;; Where a letter becomes two, as `ß' in capitals, Emacs 28 leaves overlays behind it where they were.
    (unless (= affedit--end (1+ (buffer-size)))
      (set-marker affedit--end (1+ (buffer-size)))
      (save-restriction
        (widen)
        (affedit--delete-overlays beg (point-max))
        (jit-lock-refontify beg)))
    (unless affedit--timer
      (setq affedit--timer (run-with-timer 0 nil #'affedit--flush-all)))))

(defun affedit--add-todo (beg end)
  "Have the lines from BEG to END looked at in batches."
  (setq affedit--todo (if affedit--todo
                          (cons (min beg (car affedit--todo)) (max end (cdr affedit--todo)))
                        (cons beg end)))
  (setq affedit--most (max affedit--most (/ (buffer-size) 16))))

(defun affedit--flush ()
  "Ask about what changed in this buffer: at once where it is little, and else behind what is visible."
  (when affedit--dirty
    (let ((beg (car affedit--dirty)) (end (cdr affedit--dirty)))
      (setq affedit--dirty nil)
      (if (> (- end beg) affedit--most-direct)
          (progn
            (affedit--add-todo beg end)
            (affedit--each-visible #'affedit--want-line))
        (affedit--widened
          (goto-char (min beg (point-max)))
          (forward-line 0)
          (affedit--want-line)
          (while (and (= 0 (forward-line 1)) (bolp) (<= (point) end))
            (affedit--want-line))))
      (affedit--go-on affedit--speller))))

(defun affedit--after-command ()
  "Ask about what the command changed, and wait a moment for the marks."
  (when affedit--dirty
    (affedit--flush)
    (let ((process (affedit--speller-process affedit--speller)))
      (when (and process (affedit--speller-asking affedit--speller) (not (input-pending-p)))
        (accept-process-output process affedit--patience nil 0)))))

(defun affedit--flush-all ()
  "Ask about what changed in all buffers."
  (setq affedit--timer nil)
  (dolist (speller affedit--spellers)
    (affedit--each-buffer speller #'affedit--flush)))

(defun affedit--fontify (beg end)
  "Mark the lines from BEG to END, which come into view.
What is not known is asked about, and keeps the marks that it has until the answer is in."
  (affedit--widened
    (goto-char beg)
    (forward-line 0)
    (let ((go t))
      (while (and go (<= (point) end))
        (let ((answer (affedit--known (affedit--text))))
          (if (eq answer 'unknown)
              (affedit--want (affedit--text))
            (affedit--paint answer)))
        (setq go (and (= 0 (forward-line 1)) (bolp))))))
  (affedit--send affedit--speller))

(defun affedit--look-at-all ()
  "Have the whole buffer looked at, what is visible first."
  (setq affedit--dirty nil)
  (affedit--each-visible #'affedit--want-line)
  (affedit--add-todo 1 (1+ (buffer-size)))
  (save-restriction
    (widen)
    (jit-lock-refontify)))

(defun affedit--all-void (speller)
  "All that SPELLER knew is void: another word, another process."
  (clrhash (affedit--speller-asked speller))
  (setf (affedit--speller-wanted speller) nil)
  (affedit--each-buffer speller #'affedit--look-at-all)
  (affedit--go-on speller))

(setq affedit--changed-function #'affedit--all-void)

(defun affedit--rests-p (speller)
  "Whether nothing waits for SPELLER, so that all its marks are those of the text as it is."
  (not (or (affedit--speller-asking speller) (affedit--speller-scanning speller) (affedit--speller-wanted speller)
           (affedit--speller-pending speller) (affedit--tried-p speller)
           (cl-some (lambda (buffer)
                      (and (buffer-live-p buffer)
                           (or (buffer-local-value 'affedit--dirty buffer)
                               (buffer-local-value 'affedit--todo buffer))))
                    (affedit--speller-buffers speller)))))

(defun affedit--idle-p ()
  "Whether nothing waits for any speller."
  (cl-every #'affedit--rests-p affedit--spellers))

;; Buffers and their dictionaries.

(defun affedit--join (speller)
  "Have this buffer checked by SPELLER."
  (unless (eq speller affedit--speller)
    (affedit--part)
    (setq affedit--speller speller affedit--told nil)
    (push (current-buffer) (affedit--speller-buffers speller))
    (affedit--look-at-all)
    (affedit--go-on speller)))

(defun affedit--part ()
  "Have this buffer checked no more.
The process of a dictionary that no buffer uses ends behind the command, since a buffer that is read anew joins again."
  (when affedit--speller
    (let ((speller affedit--speller))
      (setq affedit--speller nil)
      (setf (affedit--speller-buffers speller) (delq (current-buffer) (affedit--speller-buffers speller)))
      (run-with-timer 0 nil #'affedit--release speller))))

(defun affedit--buffers ()
  "All buffers that are checked."
  (cl-loop for speller in affedit--spellers append (cl-remove-if-not #'buffer-live-p (affedit--speller-buffers speller))))

(defun affedit--lasting-name (name pair)
  "NAME, or PAIR where it is a path: other buffers have other folders."
  (if (string-match-p "/" name) pair name))

(defun affedit--chosen-speller ()
  "The speller of the dictionary and of the list that are chosen for this buffer."
  (affedit--speller-for (affedit--find-dictionary affedit-dictionary)))

(defun affedit--follow ()
  "Have this buffer checked by what is chosen for it, also by a local variable of its file.
Without that dictionary it is not checked: another one would mark nearly all words."
  (condition-case fault
      (affedit--join (affedit--chosen-speller))
    (error
     (affedit--tell "%s" (error-message-string fault))
     (affedit-mode -1))))

(defconst affedit--hooks
  '((after-change-functions . affedit--after-change)
    (post-command-hook . affedit--after-command)
    (change-major-mode-hook . affedit--leave)
    (kill-buffer-hook . affedit--leave)
    (clone-buffer-hook . affedit--begin-clone)
    (clone-indirect-buffer-hook . affedit--begin-clone)
    (hack-local-variables-hook . affedit--follow))
  "What a buffer that is checked calls, each (HOOK . FUNCTION).")

(defun affedit--switch-on ()
  "Have this buffer checked."
  (setq affedit--end (copy-marker (1+ (buffer-size)) t)
        affedit--predicate (affedit--find-predicate))
  (dolist (hook affedit--hooks)
    (add-hook (car hook) (cdr hook) nil t))
  ;; What is a comment or a string may change with a line before.
  (jit-lock-register #'affedit--fontify (and affedit--predicate t)))

(defun affedit--switch-off ()
  "Have this buffer checked no more, and delete its marks."
  (affedit--part)
  (dolist (hook affedit--hooks)
    (remove-hook (car hook) (cdr hook) t))
  (jit-lock-unregister #'affedit--fontify)
  (setq affedit--dirty nil affedit--todo nil)
  (when affedit--end
    (set-marker affedit--end nil))
  (save-restriction
    (widen)
    (affedit--delete-overlays (point-min) (point-max))))

(defun affedit--lighter ()
  "What the mode line has of the mode."
  (if (and affedit--speller (affedit--speller-failed affedit--speller)) " Aff!" " Aff"))

;;;###autoload
(define-minor-mode affedit-mode
  "Mark the words that the dictionary does not generate."
  :lighter (:eval (affedit--lighter))
  :keymap (make-sparse-keymap)
  (if (not affedit-mode)
      (affedit--switch-off)
    (condition-case fault
        (let ((speller (affedit--chosen-speller)))
          (affedit--switch-on)
          (affedit--join speller))
      (error
       (setq affedit-mode nil)
       ;; The choice of a file does not keep the other hooks of its mode from running.
       (if (local-variable-p 'affedit-dictionary)
           (affedit--tell "%s" (error-message-string fault))
         (signal (car fault) (cdr fault)))))))

(defun affedit--leave ()
  "The buffer goes, or its major mode changes and forgets the local variables."
  (affedit-mode -1))

(defun affedit--begin-clone ()
  "The buffer is a clone, with a copy of all local variables: it is checked by itself."
  (setq affedit--speller nil)
  (affedit-mode 1))

;; What is known of a buffer.

(defun affedit--each-line (function)
  "Call FUNCTION with the number, the first position and what is shown of the answer of each line."
  (affedit--widened
    (goto-char (point-min))
    (let ((number 1) (go t))
      (while go
        (funcall function number (point) (affedit--shown (affedit--known (affedit--text))))
        (setq number (1+ number)
              go (and (= 0 (forward-line 1)) (bolp)))))))

(defun affedit--list ()
  "The marks that are known of the buffer, each (LINE START STOP)."
  (let (marks)
    (affedit--each-line
     (lambda (number _ answer)
       (when (listp answer)
         (dolist (mark answer)
           (push (list number (car mark) (cdr mark)) marks)))))
    (nreverse marks)))

(defun affedit--count ()
  "How many marks and lines there are, how many wait, how many are not checked, and the first of these."
  (let ((marks 0) (lines 0) (waiting 0) (refused 0) first)
    (affedit--each-line
     (lambda (number _ answer)
       (cl-incf lines)
       (cond ((eq answer 'unknown) (cl-incf waiting))
             ((stringp answer)
              (cl-incf refused)
              (unless first
                (setq first (cons number answer))))
             (t (cl-incf marks (length answer))))))
    (list :marks marks :lines lines :waiting waiting :refused refused :first-refused first)))

(defun affedit--speller-here ()
  "What this buffer is checked by.  An error where it is not checked."
  (or affedit--speller (user-error "Affedit-mode is off in this buffer")))

(defun affedit--answer-here ()
  "The marks of the line at point, waited for where they are not known."
  (let* ((speller (affedit--speller-here)) (text (affedit--text)) (answer (affedit--known text)))
    (when (eq answer 'unknown)
      (let ((texts (list text)) (lines 0) (until (+ (float-time) 10)) (done nil))
        (save-excursion
          (while (and (< (cl-incf lines) 100) (= 0 (forward-line 1)) (bolp))
            (when (eq (affedit--known (affedit--text)) 'unknown)
              (push (affedit--text) texts))))
        (affedit--ask speller texts (lambda (answers)
                                      (setq done t)
                                      (affedit--receive speller texts answers)))
        (while (and (not done) (< (float-time) until))
          (accept-process-output (affedit--speller-process speller) 0.1))
        (setq answer (affedit--known text))
        (when (eq answer 'unknown)
          (user-error "The line is not checked: %s"
                      (or (affedit--speller-failed speller) "the program does not answer")))))
    (if (listp answer) (affedit--shown answer) nil)))

(defun affedit--bounds-here ()
  "The bounds of the mark at point, or nil."
  (affedit--widened
    (let* ((position (point)) (answer (affedit--answer-here)) (line (line-beginning-position)))
      (cl-loop for mark in answer
               for beg = (affedit--place line (car mark))
               for end = (affedit--place line (cdr mark))
               when (<= beg position (1- end)) return (cons beg end)))))

(defun affedit--seek (forward)
  "The position of the next mark if FORWARD, or else of the one before; around the end of what is accessible.  Nil where there is none."
  (let ((from (point)) (low (point-min)) (high (point-max)) (turns 0) found done)
    (affedit--widened
      (while (not (or found done))
        (let ((line (line-beginning-position)) places)
          (dolist (mark (affedit--answer-here))
            (let ((place (affedit--place line (car mark))))
              (when (and (<= low place) (< place high)
                         (if (= turns 0)
                             (if forward (> place from) (< place from))
                           t))
                (push place places))))
          (setq found (if forward (car (last places)) (car places)))
          (unless found
            (if forward
                (unless (and (= 0 (forward-line 1)) (bolp) (< (point) high))
                  (setq turns (1+ turns))
                  (goto-char low))
              (if (and (> (line-beginning-position) low) (= 0 (forward-line -1)))
                  nil
                (setq turns (1+ turns))
                (goto-char high)))
            (setq done (= turns 2))))))
    found))

;; Commands.

(defun affedit--jump (forward)
  "Move to the next mark if FORWARD, or else to the one before."
  (affedit--speller-here)
  (let ((found (affedit--seek forward)))
    (if (not found)
        (message "No marks")
      (push-mark nil t)
      (goto-char found))))

(defun affedit-next ()
  "Move to the next mark."
  (interactive)
  (affedit--jump t))

(defun affedit-previous ()
  "Move to the mark before."
  (interactive)
  (affedit--jump nil))

(defun affedit-add (line)
  "Add LINE to the personal list, the word at point if nothing else is typed."
  (interactive
   (let* ((bounds (affedit--bounds-here))
          (word (if bounds (buffer-substring-no-properties (car bounds) (cdr bounds)) (thing-at-point 'word t))))
     (list (read-string (format "Add to the personal list (%s): " word) nil nil word))))
  (affedit--add (affedit--speller-here) line))

(defun affedit-forget (item)
  "Take ITEM, a line of the personal list, out of it: that of the word at point if nothing else is chosen."
  (interactive
   (let* ((items (affedit--items (affedit--speller-own (affedit--speller-here)))) (here (affedit--item-here items)))
     (list (completing-read (format "Take out of the personal list%s: " (if here (format " (%s)" here) ""))
                            items nil t nil nil here))))
  (when (string-blank-p item)
    (user-error "No word is chosen"))
  (affedit--take-back (affedit--speller-here) item))

(defun affedit--read-dictionary (prompt)
  "Ask for a dictionary with PROMPT."
  (list (completing-read prompt (affedit--dictionary-names))))

(defun affedit--exchange (pair buffers choose)
  "Have BUFFERS checked by the dictionary PAIR, and CHOOSE called, when it is read.
Where it is refused, all stays as it is."
  (let ((speller (affedit--speller-for pair)))
    (affedit--try
     speller
     (lambda (fault)
       (if fault
           (affedit--tell "%s is not read: %s; nothing changes" pair fault)
         (funcall choose)
         (dolist (buffer buffers)
           (when (buffer-live-p buffer)
             (with-current-buffer buffer
               (when affedit--speller
                 (affedit--join speller))))))))))

(defun affedit-change-dictionary (name)
  "Take the dictionary NAME for this buffer; with an empty NAME, that of all buffers without one of their own."
  (interactive (affedit--read-dictionary "Dictionary of this buffer (empty: that of all): "))
  (let* ((buffer (current-buffer)) (none (equal name ""))
         (pair (affedit--find-dictionary (if none (default-value 'affedit-dictionary) name))))
    (affedit--exchange pair (list buffer)
                       (lambda ()
                         (when (buffer-live-p buffer)
                           (with-current-buffer buffer
                             (if none
                                 (kill-local-variable 'affedit-dictionary)
                               (setq-local affedit-dictionary (affedit--lasting-name name pair)))))))))

(defun affedit-use-dictionary (name)
  "Take the dictionary NAME for all buffers without one of their own."
  (interactive (affedit--read-dictionary "Dictionary: "))
  (let ((pair (affedit--find-dictionary name)))
    (affedit--exchange pair
                       (cl-remove-if (lambda (buffer) (local-variable-p 'affedit-dictionary buffer)) (affedit--buffers))
                       (lambda () (set-default 'affedit-dictionary (affedit--lasting-name name pair))))))

(defun affedit-change-scope (scope)
  "Show the marks of SCOPE, `prose' or `all', in this buffer."
  (interactive (list (intern (completing-read "Scope: " '("prose" "all") nil t))))
  (unless (memq scope '(prose all))
    (user-error "There is no scope %s: it is prose or all" scope))
  (setq-local affedit-scope scope)
  (when affedit--speller
    (affedit--look-at-all)
    (affedit--go-on affedit--speller)))

(defun affedit-restart ()
  "Start the programs anew, each with the dictionary and the list that are chosen for its buffers."
  (interactive)
  (mapc #'affedit--restart (copy-sequence affedit--spellers))
  (dolist (buffer (affedit--buffers))
    (with-current-buffer buffer
      (affedit--follow))))

(defun affedit-status ()
  "Tell what is known of the buffer."
  (interactive)
  (let* ((speller (affedit--speller-here)) (process (affedit--speller-process speller))
         (failed (affedit--speller-failed speller)) (count (affedit--count)))
    (message "Dictionary %s, list %s, %s; %d marks in %d lines; %d lines wait, %d are not checked%s"
             (affedit--speller-pair speller) (affedit--speller-own speller)
             (if process (format "process %d" (process-id process)) "no process")
             (plist-get count :marks) (plist-get count :lines) (plist-get count :waiting) (plist-get count :refused)
             (if failed (concat "; " failed) ""))))

(defun affedit--suggestions (word)
  "What hunspell suggests for WORD."
  (unless (executable-find "hunspell")
    (user-error "There is no hunspell, so there are no suggestions"))
  (let ((pair (affedit--speller-pair (affedit--speller-here))))
    (with-temp-buffer
      (insert "^" word "\n")
      (let ((coding-system-for-read 'utf-8) (coding-system-for-write 'utf-8))
        (call-process-region (point-min) (point-max) "hunspell" t t nil "-a" "-i" "utf-8" "-d" pair))
      (goto-char (point-min))
      (when (re-search-forward "^& .* [0-9]+ [0-9]+: \\(.*\\)$" nil t)
        (split-string (match-string 1) ", ")))))

(defun affedit-suggest ()
  "Replace the marked word at point by a suggestion of hunspell's; Affedit itself suggests nothing."
  (interactive)
  (let* ((bounds (or (affedit--bounds-here) (user-error "There is no mark at point")))
         (word (buffer-substring-no-properties (car bounds) (cdr bounds)))
         (list (or (affedit--suggestions word) (user-error "Hunspell suggests nothing for %s" word)))
         (choice (completing-read (format "Instead of %s: " word) list)))
    (unless (equal choice "")
      (save-excursion
        (goto-char (car bounds))
        (delete-region (car bounds) (cdr bounds))
        (insert choice)))))

;; Flymake.

(defun affedit--diagnostics ()
  "The marks of the buffer as diagnostics, at most `affedit--most-diagnostics'."
  (let ((left affedit--most-diagnostics) found)
    (affedit--each-line
     (lambda (_ line answer)
       (dolist (mark (and (listp answer) answer))
         (when (> left 0)
           (setq left (1- left))
           (let ((beg (affedit--place line (car mark))) (end (affedit--place line (cdr mark))))
             (push (flymake-make-diagnostic (current-buffer) beg end :note
                                            (format "not in the dictionary: %s" (buffer-substring-no-properties beg end)))
                   found))))))
    (when (= left 0)
      (affedit--tell "flymake is told of the first %d marks" affedit--most-diagnostics))
    (nreverse found)))

(defun affedit--report-marks ()
  "Answer flymake where it waits; nothing else waits."
  (when affedit--report
    (let ((report affedit--report))
      (setq affedit--report nil)
      (funcall report (save-restriction (widen) (affedit--diagnostics))))))

(defun affedit-flymake (report &rest _)
  "A backend of flymake: REPORT gets the marks when nothing waits."
  (if (not affedit-mode)
      (funcall report nil)
    (setq affedit--report report)
    (affedit--flush-all)
    (affedit--scan affedit--speller)))

;;;###autoload
(defun affedit-flymake-setup ()
  "Offer the marks of this buffer to flymake."
  (interactive)
  (require 'flymake)
  (add-hook 'flymake-diagnostic-functions #'affedit-flymake nil t)
  (flymake-mode 1)
  (flymake-start))

(provide 'affedit)

;; Local Variables:
;; byte-compile-docstring-max-column: 160
;; End:

;;; affedit.el ends here
